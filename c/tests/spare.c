/* More objects than persons, with costs that differ so much that bids by the smallest steps would take very long: each is solved in less than a
 * second, from nothing and from starts, and its cost is that of another method. The last line is `N passed, M failed`. */
#include "sigdorf.h"
#include "least.h"
#include "want.h"
#include <inttypes.h>
#include <stdio.h>
#include <string.h>
#include <time.h>

enum { MOST_ROWS = 100, MOST_COLUMNS = 150 };

typedef struct problem {
    const char *name;
    uint32_t rows, columns;
    int64_t costs[MOST_ROWS][MOST_COLUMNS];
} problem;

static sigdorf_arc arcs[MOST_ROWS * MOST_COLUMNS];
static uint32_t choice[MOST_ROWS], hall_objects[MOST_ROWS];
static int64_t prices[MOST_COLUMNS], start[MOST_COLUMNS];
static sigdorf_found found;

static int64_t least_of(const problem *p) { return least_cost(p->costs[0], p->rows, p->columns, MOST_COLUMNS); }

static size_t arcs_of(const problem *p) {
    size_t count = 0;
    for (uint32_t i = 0; i < p->rows; i++)
        for (uint32_t j = 0; j < p->columns; j++)
            if (p->costs[i][j] < NONE)
                arcs[count++] = (sigdorf_arc){p->costs[i][j], i, j};
    return count;
}

/* From so many start prices; the status, where that took less than a second, or -1. */
static int32_t solve_from(const problem *p, size_t count, size_t start_len, uint64_t bids) {
    clock_t begun = clock();
    int32_t status = sigdorf_solve(p->rows, p->columns, arcs, count, start, start_len, bids, choice, p->rows, prices, p->columns, hall_objects,
                                   p->rows, &found);
    return clock() - begun < CLOCKS_PER_SEC ? status : -1;
}

static void want_least(const problem *p, size_t count, size_t start_len, int64_t least) {
    want(p->name, solve_from(p, count, start_len, SIGDORF_USUAL_BIDS), SIGDORF_OPTIMAL);
    want(p->name, found.cost, least);
    want(p->name, sigdorf_check(p->rows, p->columns, arcs, count, choice, p->rows, prices, p->columns, least, &found), SIGDORF_OPTIMAL);
}

/* Without bids there is a bound, unless no bid is wanted. */
static void want_bound(const problem *p, size_t count, size_t start_len, int64_t least) {
    int32_t status = solve_from(p, count, start_len, 0);
    want(p->name, status == SIGDORF_OPTIMAL || (status == SIGDORF_BRACKET && found.kind == SIGDORF_BIDS && found.lower <= least), 1);
    want(p->name, least <= found.cost, 1);
}

static void fill(int64_t price, uint32_t columns) {
    for (uint32_t j = 0; j < columns; j++)
        start[j] = price;
}

static void try(const problem *p, int64_t least) {
    size_t count = arcs_of(p);
    want(p->name, least_of(p), least);
    want_least(p, count, 0, least);
    memcpy(start, prices, sizeof start);
    want_least(p, count, p->columns, least);
    want_bound(p, count, p->columns, least);
    fill(SIGDORF_HIGHEST_START, p->columns);
    want_least(p, count, p->columns, least);
    want_bound(p, count, p->columns, least);
    fill(0, p->columns);
    start[p->columns - 1] = SIGDORF_HIGHEST_START;
    want_least(p, count, p->columns, least);
}

/* Three rows that all want the first two columns, with outlets at very unequal costs. */
static void outlets(void) {
    static problem p = {"outlets", 3, 4, {{0, 0, 1000000000, 500000000}, {0, 0, 999999500, 100000000}, {0, 0, 999999000, 600000000}}};
    try(&p, 100000000);
}

/* Shared columns at costs from 0 to 9, and behind them for each row one of its own at a great cost. */
static void with_ends(const char *name, uint32_t rows, uint32_t shared, int64_t end) {
    static problem p;
    uint32_t state = 3;
    p.name = name, p.rows = rows, p.columns = shared + rows;
    for (uint32_t i = 0; i < rows; i++)
        for (uint32_t j = 0; j < p.columns; j++) {
            state = state * 1664525 + 1013904223;
            p.costs[i][j] = j < shared ? (int64_t)((state >> 16) % 10) : j - shared == i ? end : NONE;
        }
    try(&p, least_of(&p));
}

int main(void) {
    outlets();
    with_ends("20 by 30 with ends", 20, 10, 1000000);
    with_ends("100 by 150 with ends", 100, 50, 1000000);
    printf("%d passed, %d failed\n", passed, failed);
    return failed != 0;
}
