/* What the Python package calls by ctypes where its extension isn't there, or has no answer: entries of any costs, by
 * the levels of c/levels. It isn't in sigdorf.h, but in the package's library.py. What changes here takes other names, so
 * that no package calls the library of another one. */
#include <stdlib.h>

#include "levels.h"

/* What was found, as a job has it. The arrays are the job's. */
typedef struct {
    const int64_t *places;                       /* of each pair its entry, by rising rows */
    const uint32_t *hall_persons, *hall_objects; /* where there is no assignment */
    const int64_t *prices, *changes;
    const int *units;
    size_t levels;
    int64_t gap;
    int32_t status, unit, gap_unit, are_whole;
    uint32_t kind, place, persons, objects;
    job w;
} python_found;

/* NULL where there is no memory. A start is NULL, or of one of two kinds, as a question has it. */
python_found *sigdorf_python_solve(uint32_t rows, uint32_t columns, const int64_t *row, const int64_t *column,
                                   const void *costs, size_t count, char type, int maximize, const int64_t *start,
                                   const double *start_amounts, uint64_t bids, sigdorf_watch *watch) {
    static const library own = {sigdorf_solve_watched, sigdorf_solve_dense_watched};
    python_found *found = malloc(sizeof *found);
    if (!found) return NULL;
    question q = {.costs = costs,
                  .row = row,
                  .column = column,
                  .start = start,
                  .start_amounts = start_amounts,
                  .count = count,
                  .rows = rows,
                  .columns = columns,
                  .stride = columns,
                  .starts = !start && !start_amounts ? 0 : rows < columns ? columns : rows,
                  .most_entries = SIGDORF_MOST_ARCS,
                  .bids = bids,
                  .type = type,
                  .wants_prices = 1,
                  .wants_levels = 1,
                  .takes_gap = 1,
                  .watch = watch};
    *found = (python_found){.w = {.q = q}};
    job *w = &found->w;
    workshop shop = {0};
    unsigned kept = begin_floats();
    found->status = begin_job(w, &shop, &own, maximize) ? STRANGE : run(w);
    if (found->status == SIGDORF_OPTIMAL || found->status == SIGDORF_BRACKET) write_pairs(w);
    close_shop(&shop);
    end_floats(kept);
    found->places = w->places;
    found->hall_persons = w->choice, found->hall_objects = w->hall;
    found->prices = w->prices, found->changes = w->changes, found->units = w->units, found->levels = w->levels;
    found->gap = w->gap, found->gap_unit = w->gap_unit;
    found->unit = w->unit, found->are_whole = w->are_whole;
    found->kind = w->kind, found->place = w->fault;
    found->persons = w->hall_persons, found->objects = w->hall_objects;
    return found;
}

void sigdorf_python_end(python_found *found) {
    end_job(&found->w);
    free(found);
}
