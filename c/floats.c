/* The library's calls of doubles, over a table as it lies in memory: c/levels solves it by the proved calls. */
#include <stdlib.h>
#include <string.h>

#include "levels.h"

/* A round of a level has an object more than the problem, and an arc more of each person. */
enum { MOST_SIDE = SIGDORF_MOST_OBJECTS - 1 };

static const library OWN = {sigdorf_solve_watched, sigdorf_solve_dense_watched};

/* Whether a table of so many rows and columns lies within a length. */
static int lies_within(uint64_t rows, uint64_t columns, size_t length, size_t stride) {
    if (stride < columns || rows * columns >> 32) return 0;
    return !rows || (length >= columns && (rows == 1 || stride <= (length - columns) / (rows - 1)));
}

static int32_t refused(sigdorf_found_f64 *found, uint32_t kind, uint32_t place) {
    found->kind = kind;
    found->place = place;
    return SIGDORF_REFUSED;
}

/* The double after one from 0. */
static double above(double value) {
    uint64_t bits;
    memcpy(&bits, &value, sizeof bits);
    bits++;
    memcpy(&value, &bits, sizeof bits);
    return value;
}

/* A gap of so many 2^-unit as a double, rounded up. */
static double rounded_up(int64_t gap, int unit) {
    double units = (double)gap;
    if (units < 0x1p63 && (int64_t)units < gap) units = above(units);
    /* Next to nothing it may be rounded down, but not to less than sums differ by: these are whole in the least
     * double. */
    return __builtin_ldexp(units, -unit);
}

/* Writes the object of each row, or SIGDORF_FREE, and what the pairs cost together; answers how many they are. */
static uint32_t write_pairs_of(const job *w, uint32_t *choice, double *cost) {
    const double *costs = w->q.costs;
    wide_sum sum = {{0}};
    uint32_t pairs = 0;
    for (size_t i = 0; i < w->q.rows; i++) choice[i] = SIGDORF_FREE;
    for (size_t i = 0; i < w->persons; i++) {
        size_t object = object_of(w, i, w->choice[i]);
        if (object >= w->width) continue;
        size_t row = w->by_columns ? object : i, column = w->by_columns ? i : object;
        choice[row] = (uint32_t)column;
        add_to(&sum, costs[row * w->q.stride + column]);
        pairs++;
    }
    *cost = nearest_to(&sum);
    return pairs;
}

/* Writes what a job has found. */
static void write_found(const job *w, int status, uint32_t *choice, uint32_t *hall, sigdorf_found_f64 *found) {
    if (status == SIGDORF_OPTIMAL || status == SIGDORF_BRACKET) {
        uint32_t pairs = write_pairs_of(w, choice, &found->cost);
        if (w->q.has_limit) found->persons = pairs;
    }
    if (status == SIGDORF_BRACKET) {
        found->gap = rounded_up(w->gap, w->gap_unit);
        found->kind = w->kind;
    }
    if (status == SIGDORF_REFUSED) refused(found, w->kind, w->fault);
    if (status == SIGDORF_INFEASIBLE) {
        found->persons = w->hall_persons, found->objects = w->hall_objects;
        memcpy(choice, w->choice, w->persons * sizeof *choice);
        memcpy(hall, w->hall, w->persons * sizeof *hall);
    }
}

/* Solves a problem, unless one side has nobody, and writes what was found: the status. What is STRANGE isn't met by a
 * caller who keeps the duties; nothing is written then either. */
static int32_t solve_in(workshop *shop, job *w, uint32_t *choice, uint32_t *hall, sigdorf_found_f64 *found) {
    int status = !w->q.count ? SIGDORF_OPTIMAL : begin_job(w, shop, &OWN, 0) ? STRANGE : run(w);
    write_found(w, status, choice, hall, found);
    return status == STRANGE ? SIGDORF_MEMORY : status;
}

/* The same of a problem alone. */
static int32_t solve(job *w, uint32_t *choice, uint32_t *hall, sigdorf_found_f64 *found) {
    workshop shop = {0};
    unsigned kept = begin_floats();
    int32_t status = solve_in(&shop, w, choice, hall, found);
    end_job(w);
    close_shop(&shop);
    end_floats(kept);
    return status;
}

static job job_of(const double *costs, size_t rows, size_t columns, size_t stride, uint64_t bids) {
    return (job){.q = {.costs = costs,
                       .count = rows * columns,
                       .rows = rows,
                       .columns = columns,
                       .stride = stride,
                       .most_entries = SIGDORF_MOST_ARCS - (rows < columns ? rows : columns),
                       .bids = bids,
                       .type = 'd',
                       .takes_gap = 1}};
}

/* The calls of a table without a gate, under a watch or NULL. */
static int32_t solve_dense(uint32_t persons, uint32_t objects, const double *costs, size_t costs_len, size_t stride,
                           uint64_t bids, sigdorf_watch *watch, uint32_t *choice, size_t choice_len,
                           uint32_t *hall_objects, size_t hall_objects_len, sigdorf_found_f64 *found) {
    size_t columns = objects ? objects : persons;
    if (choice_len != persons || hall_objects_len != persons || !lies_within(persons, columns, costs_len, stride))
        return SIGDORF_SIZES;
    if (persons < 1 || persons > SIGDORF_MOST_PERSONS) return refused(found, SIGDORF_PERSONS, 0);
    if (columns < persons || columns > MOST_SIDE) return refused(found, SIGDORF_OBJECTS, 0);
    job w = job_of(costs, persons, columns, stride, bids);
    w.q.watch = watch;
    return solve(&w, choice, hall_objects, found);
}

int32_t sigdorf_solve_dense_f64(uint32_t persons, uint32_t objects, const double *costs, size_t costs_len,
                                size_t stride, uint64_t bids, uint32_t *choice, size_t choice_len,
                                uint32_t *hall_objects, size_t hall_objects_len, sigdorf_found_f64 *found) {
    return solve_dense(persons, objects, costs, costs_len, stride, bids, NULL, choice, choice_len, hall_objects,
                       hall_objects_len, found);
}

/* The watch of a call, which tells nobody of progress; and what is written to the caller's at the end. */
static sigdorf_watch silent(const sigdorf_watch *watch) { return (sigdorf_watch){watch->until, watch->stop, -1, 0, 0}; }

static int32_t end(sigdorf_watch *watch, const sigdorf_watch *own, int32_t status) {
    watch->stopped = own->stopped, watch->asked = own->asked;
    return status;
}

int32_t sigdorf_solve_dense_f64_watched(uint32_t persons, uint32_t objects, const double *costs, size_t costs_len,
                                        size_t stride, uint64_t bids, sigdorf_watch *watch, uint32_t *choice,
                                        size_t choice_len, uint32_t *hall_objects, size_t hall_objects_len,
                                        sigdorf_found_f64 *found) {
    sigdorf_watch own = silent(watch);
    int32_t status = solve_dense(persons, objects, costs, costs_len, stride, bids, &own, choice, choice_len,
                                 hall_objects, hall_objects_len, found);
    return end(watch, &own, status);
}

/* Takes the problem of a match, under a watch or NULL: SIGDORF_OPTIMAL, or the status of what can't be asked. */
static int32_t take_match(job *w, const sigdorf_table_f64 *table, uint64_t bids, sigdorf_watch *watch,
                          sigdorf_found_f64 *found) {
    uint32_t persons = table->persons, objects = table->objects;
    if (!lies_within(persons, objects, table->costs_len, table->stride)) return SIGDORF_SIZES;
    if (persons > MOST_SIDE) return refused(found, SIGDORF_PERSONS, 0);
    if (objects > MOST_SIDE - persons) return refused(found, SIGDORF_OBJECTS, 0);
    if (!(table->gate - table->gate == 0)) return refused(found, SIGDORF_GATE, 0);
    *w = job_of(table->costs, persons, objects, table->stride, bids);
    w->q.limit = table->gate, w->q.has_limit = 1, w->q.watch = watch;
    return SIGDORF_OPTIMAL;
}

static int32_t match(const sigdorf_table_f64 *table, uint64_t bids, sigdorf_watch *watch, uint32_t *choice,
                     size_t choice_len, sigdorf_found_f64 *found) {
    job w;
    if (choice_len != table->persons) return SIGDORF_SIZES;
    int32_t status = take_match(&w, table, bids, watch, found);
    return status ? status : solve(&w, choice, NULL, found);
}

int32_t sigdorf_match(uint32_t persons, uint32_t objects, const double *costs, size_t costs_len, size_t stride,
                      double gate, uint64_t bids, uint32_t *choice, size_t choice_len, sigdorf_found_f64 *found) {
    const sigdorf_table_f64 table = {persons, objects, costs, costs_len, stride, gate};
    return match(&table, bids, NULL, choice, choice_len, found);
}

int32_t sigdorf_match_watched(uint32_t persons, uint32_t objects, const double *costs, size_t costs_len, size_t stride,
                              double gate, uint64_t bids, sigdorf_watch *watch, uint32_t *choice, size_t choice_len,
                              sigdorf_found_f64 *found) {
    const sigdorf_table_f64 table = {persons, objects, costs, costs_len, stride, gate};
    sigdorf_watch own = silent(watch);
    return end(watch, &own, match(&table, bids, &own, choice, choice_len, found));
}

/* Whether tables have so many persons together. */
static int have_together(const sigdorf_table_f64 *tables, size_t count, size_t persons) {
    for (size_t k = 0; k < count; k++) {
        if (tables[k].persons > persons) return 0;
        persons -= tables[k].persons;
    }
    return !persons;
}

/* Solves one table of many, with memory for an answer that another one may have had: its status. */
static int32_t match_next(workshop *shop, room *answer, const sigdorf_table_f64 *table, uint64_t bids,
                          sigdorf_watch *watch, uint32_t *choice, sigdorf_found_f64 *found) {
    job w = {.q.watch = watch};
    int32_t status = is_over(&w) ? SIGDORF_UNREACHED : take_match(&w, table, bids, watch, found);
    if (status) return status;
    w.answer = *answer;
    status = solve_in(shop, &w, choice, NULL, found);
    /* The next one's. */
    *answer = w.answer, w.answer = (room){0};
    end_job(&w);
    return status;
}

/* The calls of many tables, under a watch or NULL. */
static int32_t match_many(const sigdorf_table_f64 *tables, size_t tables_len, uint64_t bids, sigdorf_watch *watch,
                          uint32_t *choice, size_t choice_len, int32_t *statuses, size_t statuses_len,
                          sigdorf_found_f64 *found, size_t found_len) {
    if (statuses_len != tables_len || found_len != tables_len || !have_together(tables, tables_len, choice_len))
        return SIGDORF_SIZES;
    int32_t all = SIGDORF_OPTIMAL;
    workshop shop = {0};
    room answer = {0};
    unsigned kept = begin_floats();
    for (size_t k = 0, at = 0; k < tables_len; at += tables[k++].persons) {
        statuses[k] = match_next(&shop, &answer, &tables[k], bids, watch, at ? choice + at : choice, &found[k]);
        if (statuses[k]) all = SIGDORF_SOME;
    }
    free(answer.block);
    close_shop(&shop);
    end_floats(kept);
    return all;
}

int32_t sigdorf_match_many(const sigdorf_table_f64 *tables, size_t tables_len, uint64_t bids, uint32_t *choice,
                           size_t choice_len, int32_t *statuses, size_t statuses_len, sigdorf_found_f64 *found,
                           size_t found_len) {
    return match_many(tables, tables_len, bids, NULL, choice, choice_len, statuses, statuses_len, found, found_len);
}

int32_t sigdorf_match_many_watched(const sigdorf_table_f64 *tables, size_t tables_len, uint64_t bids,
                                   sigdorf_watch *watch, uint32_t *choice, size_t choice_len, int32_t *statuses,
                                   size_t statuses_len, sigdorf_found_f64 *found, size_t found_len) {
    sigdorf_watch own = silent(watch);
    int32_t status = match_many(tables, tables_len, bids, &own, choice, choice_len, statuses, statuses_len, found,
                                found_len);
    return end(watch, &own, status);
}
