/* For madvise beside what C has. */
#define _DEFAULT_SOURCE
/* Runs a problem: its memory, the library's call in whole units, and what is made of its answer. */
#include <math.h>
#include <stdlib.h>
#include <string.h>
#ifdef __SSE2__
#include <xmmintrin.h>
#endif
#ifdef __linux__
#include <sys/mman.h>
#endif

#include "levels.h"

/* Tables with fewer entries, gaps among them, are solved as tables. */
#define FEWEST_LISTED 2500
/* Blocks of so many bytes and more are of large pages, where there are such ones. It is the number of numpy, by which
 * a table of 5,000 rows and columns with ties took 0.85 to 0.92 of the time. */
#define FEWEST_FOR_LARGE_PAGES ((size_t)1 << 22)
#define SMALL_PAGE 4096

/* ---- Working memory */

/* Asks for large pages, as numpy does: the system fills a new block page by page, which takes as long as two passes. */
static void ask_for_large_pages(void *block, size_t bytes) {
#ifdef MADV_HUGEPAGE
    if (!block || bytes < FEWEST_FOR_LARGE_PAGES) return;
    uintptr_t from = ((uintptr_t)block + SMALL_PAGE - 1) / SMALL_PAGE * SMALL_PAGE;
    /* Where there are none, nothing changes. */
    (void)madvise((void *)from, (uintptr_t)block + bytes - from, MADV_HUGEPAGE);
#else
    (void)block, (void)bytes;
#endif
}

void *block_of(room *r, size_t bytes) {
    if (r->block && r->bytes >= bytes) return r->block;
    free(r->block);
    r->block = malloc(bytes);
    r->bytes = r->block ? bytes : 0;
    ask_for_large_pages(r->block, bytes);
    return r->block;
}

void close_shop(workshop *shop) {
    free(shop->costs.block);
    free(shop->level.block);
    free(shop->round.block);
    free(shop->object);
    free(shop->entry);
    free(shop->slack);
    free(shop->tail);
}

/* Takes the memory of an answer. */
static int make_room(job *w) {
    size_t persons = w->persons, objects = w->objects;
    w->prices = block_of(&w->answer, (objects + 4 * persons + w->q.rows + w->q.columns) * 8);
    if (!w->prices) return SIGDORF_MEMORY;
    w->rows = w->prices + objects;
    w->columns = w->rows + persons;
    w->places = w->columns + persons;
    w->free_rows = w->places + persons;
    w->free_columns = w->free_rows + w->q.rows;
    w->choice = (uint32_t *)(w->free_columns + w->q.columns);
    w->hall = w->choice + persons;
    memset(w->prices, 0, objects * 8);
    return 0;
}

void end_job(job *w) {
    free(w->answer.block);
    free(w->changes);
    free(w->units);
    free(w->combined);
}

/* ---- Whole units */

/* Whether entries are solved one by one, and not as a table: of a table with many gaps that took a half to a twentieth
 * of the time (100 to 1,000 rows with 3 to 80 % of all entries, test_road.py); with fewer gaps or rows a table is as
 * fast or faster. A table with ways out has no gaps for the library, and is as fast as a list from 12 to 30 % of all
 * entries within the limit (50 to 500 rows: random costs, and distances in a plane). */
static int are_listed(const job *w) {
    if (w->q.row || (w->q.starts && w->outlets) || w->q.count > SIGDORF_MOST_ARCS) return 1;
    return w->q.count >= FEWEST_LISTED && w->entries - w->outlets <= (w->outlets ? w->q.count / 5 : w->q.count / 4 * 3);
}

/* Whether the library can take a table where it lies: whole numbers to 10^9 row by row, of which the least are wanted. A
 * type without a sign has the same bits. */
static int is_taken_as_it_lies(const job *w) {
    return w->q.is_kept && w->is_small && w->q.type != 'd' && w->sign > 0 && !w->by_columns && !w->outlets
           && (uintptr_t)w->q.costs % sizeof(int64_t) == 0;
}

/* Whole costs. */
static int make_costs(job *w) {
    int status = look_over(w);
    if (status) return status;
    w->arcs = NULL;
    if (are_listed(w)) {
        status = list_entries(w);
        return status ? status : write_costs(w);
    }
    w->costs = is_taken_as_it_lies(w) ? (int64_t *)w->q.costs
                                      : block_of(&w->shop->costs, (w->q.count + w->outlets) * 8);
    return w->costs ? write_costs(w) : SIGDORF_MEMORY;
}

/* A price of whole units, of one in the unit of the costs. */
static int64_t whole_price(const job *w, double amount) {
    double price = ldexp(amount * (double)(w->persons + 1), w->unit) + 0.5;
    return price >= (double)SIGDORF_HIGHEST_START ? SIGDORF_HIGHEST_START : price > 0 ? (int64_t)price : 0;
}

/* Prices to start from in whole units: the caller's are those of whole costs, or in the unit of the costs. */
static void write_start(const job *w, int64_t *to) {
    if (w->q.start_amounts) {
        for (size_t j = 0; j < w->q.starts; j++) to[j] = whole_price(w, w->q.start_amounts[j]);
        return;
    }
    int finer = w->unit > 0 ? w->unit : 0, coarser = w->unit < 0 ? -w->unit : 0;
    for (size_t j = 0; j < w->q.starts; j++) {
        int64_t price = w->q.start[j];
        if (finer > 60 ? price > 0 : price > SIGDORF_HIGHEST_START >> finer)
            to[j] = SIGDORF_HIGHEST_START;
        else
            to[j] = finer > 60 || coarser > 60 ? 0 : price << finer >> coarser;
    }
}

/* The library's status. A table with ways out has gaps that cost as much in their place. */
static int32_t ask_library(job *w, sigdorf_found *found) {
    size_t persons = w->persons, objects = w->arcs ? w->objects : w->width;
    int64_t none = 0, *start = w->q.starts ? malloc(objects * 8) : &none;
    if (!start) return SIGDORF_MEMORY;
    write_start(w, start);
    memset(w->choice, 0, persons * 8);
    uint64_t bids = bids_for(w->q.bids, persons);
    sigdorf_watch watch = watch_of(w, 1);
    int32_t status =
        w->arcs ? w->calls->solve((uint32_t)persons, (uint32_t)objects, w->arcs, w->entries, start, w->q.starts, bids,
                                  &watch, w->choice, persons, w->prices, objects, w->hall, persons, found)
                : w->calls->solve_dense((uint32_t)persons, (uint32_t)objects, w->costs, w->q.count, objects, NO_ENTRY,
                                        start, w->q.starts, bids, &watch, w->choice, persons, w->prices, objects,
                                        w->hall, persons, found);
    take_watch(w, &watch);
    if (start != &none) free(start);
    return status;
}

/* Whether choices are entries and no gaps, and take no object twice: what is proved of the library is no reason to trust
 * whatever was bound in its place. Those of a table become numbers of entries. */
static int are_entries(job *w) {
    uint8_t *taken = block_of(&w->shop->level, w->objects);
    if (!taken) return SIGDORF_MEMORY;
    memset(taken, 0, w->objects);
    for (size_t i = 0; i < w->persons; i++) {
        size_t choice = w->choice[i];
        if (w->arcs ? choice < w->first[i] || choice >= w->first[i + 1] : choice >= w->width) return STRANGE;
        if (!w->arcs) choice += i * w->width;
        w->choice[i] = (uint32_t)choice;
        if (whole_at(w, choice) == NO_ENTRY) return STRANGE;
        if (taken[object_of(w, i, choice)]++) return STRANGE;
    }
    return 0;
}

/* Makes the gap of a search with a gate one of the costs as they are, rounded up, where the choice may have more gates
 * than another assignment. All that is no gate costs less than half of one together, so a bound of all whole costs
 * tells the fewest gates. */
static void lift_gap(job *w, int64_t lower) {
    int64_t gates = 0, less = lower - w->gate_cost / 2;
    for (size_t i = 0; i < w->persons; i++) gates += whole_at(w, w->choice[i]) == w->gate_cost;
    if (less > 0) gates -= (less - 1) / w->gate_cost + 1;
    if (gates <= 0) return;
    /* In a unit in which all of it is below 2^62. */
    int exponent, unit = w->unit;
    frexp(fabs(w->gate) > fabs(w->floor) ? w->gate : w->floor, &exponent);
    if (unit > 59 - exponent - bits_in((size_t)gates)) unit = 59 - exponent - bits_in((size_t)gates);
    double more = ldexp(w->gate, unit) - ldexp((double)(w->least + w->gate_cost), unit - w->unit);
    int down = w->unit - unit;
    w->gap = gates * ((int64_t)(more + fabs(more) * 0x1p-48) + 2) + (down > 62 ? 0 : w->gap >> down) + 1;
    w->gap_unit = unit;
}

/* Leaves free whom a search that was ended has at a gap, which costs as much as a way out. */
static void leave_gaps(job *w) {
    for (size_t i = 0; !w->arcs && w->outlets && i < w->persons; i++)
        if (is_gap(w, place_of(w, i, w->choice[i]))) w->choice[i] = (uint32_t)entry_for(w, i, w->width + i);
}

/* Takes what a call of the library's has found where it has no least assignment: a status. */
static int take_found(job *w, int32_t status, const sigdorf_found *found) {
    w->kind = found->kind;
    w->gap = found->cost - found->lower + (w->has_tails ? (int64_t)w->persons : 0);
    w->gap_unit = w->unit;
    w->hall_persons = found->persons, w->hall_objects = found->objects;
    if (status == SIGDORF_BRACKET && w->gate_cost && w->gap >= 0) lift_gap(w, found->lower);
    if (status == SIGDORF_BRACKET) leave_gaps(w);
    if (status == SIGDORF_BRACKET) return w->q.takes_gap && w->gap >= 0 ? status : STRANGE;
    return status == SIGDORF_INFEASIBLE || status == SIGDORF_MEMORY ? status : STRANGE;
}

/* ---- The whole way */

int begin_job(job *w, workshop *shop, const library *calls, int maximize) {
    const question *q = &w->q;
    w->shop = shop;
    w->calls = calls;
    w->sign = maximize ? -1 : 1;
    w->by_columns = q->rows > q->columns;
    w->persons = w->by_columns ? q->columns : q->rows;
    w->width = w->by_columns ? q->rows : q->columns;
    w->outlets = q->has_limit ? w->persons : 0;
    w->objects = w->width + w->outlets;
    return w->persons < 1 || w->persons > SIGDORF_MOST_PERSONS || w->objects > SIGDORF_MOST_OBJECTS ||
           ((q->start || q->start_amounts) && q->starts != w->objects);
}

int run(job *w) {
    w->levels = 0, w->are_whole = 0, w->gap = 0;
    int status = make_room(w);
    if (!status) status = make_costs(w);
    if (status) return status;
    sigdorf_found found = {0};
    int32_t said = ask_library(w, &found);
    if (said != SIGDORF_OPTIMAL && said != SIGDORF_BRACKET) return take_found(w, said, &found);
    status = are_entries(w);
    if (status) return status;
    if (said == SIGDORF_BRACKET)
        status = take_found(w, said, &found);
    else
        status = refine(w);
    if (status == SIGDORF_BRACKET && !w->q.takes_gap) return STRANGE;
    if (status && status != SIGDORF_BRACKET) return status;
    int fails = w->q.wants_prices ? sum_up(w) : 0;
    if (!fails && w->q.wants_prices) fails = combine(w);
    return fails ? fails : status;
}

unsigned begin_floats(void) {
#ifdef __SSE2__
    unsigned kept = _mm_getcsr();
    _mm_setcsr(0x1f80);
    return kept;
#else
    return 0;
#endif
}

void end_floats(unsigned kept) {
#ifdef __SSE2__
    _mm_setcsr(kept);
#else
    (void)kept;
#endif
}
