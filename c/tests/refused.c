/* Refuses each allocation of each call in turn: the status is SIGDORF_MEMORY until nothing is refused, nothing is written, and nothing stays
 * taken. And the most memory that calls of doubles take. Linked with --wrap. The last line is `N passed, M failed`. */
#include "sigdorf.h"
#include <malloc.h>
#include <math.h>
#include <stdio.h>
#include <stdlib.h>
#include <string.h>

void *__real_malloc(size_t);
void *__real_realloc(void *, size_t);
void __real_free(void *);

static long left = -1, taken, calls;
static size_t bytes, most_bytes;

static void *counted(void *block) {
    bytes += block == NULL ? 0 : malloc_usable_size(block);
    most_bytes = bytes > most_bytes ? bytes : most_bytes;
    return block;
}

static int is_refused(void) {
    calls++;
    return left >= 0 && left-- == 0;
}

void *__wrap_malloc(size_t size) {
    if (is_refused())
        return NULL;
    taken++;
    return counted(__real_malloc(size));
}

void *__wrap_realloc(void *old, size_t size) {
    if (is_refused())
        return NULL;
    if (old == NULL)
        taken++;
    else
        bytes -= malloc_usable_size(old);
    return counted(__real_realloc(old, size));
}

void __wrap_free(void *old) {
    if (old != NULL) {
        taken--;
        bytes -= malloc_usable_size(old);
    }
    __real_free(old);
}

static sigdorf_arc arcs[] = {{1, 0, 0}, {2, 0, 1}, {1, 1, 0}, {4, 1, 1}};
static int64_t table[] = {1, 2, -1, 1, 4, 7}, full[] = {1, 2, 8, 1, 4, 7}, same[] = {-1, 1, -1, -1, 4, -1};
static sigdorf_arc both[] = {{1, 0, 1}, {1, 1, 1}};
static uint32_t choice[2], objects[2];
static int64_t prices[4], nothing[1], start[4] = {1, 0, 5, 0};
static sigdorf_found found;
static sigdorf_found_f64 found_f64;
/* Whole units leave these open, so that a round decides. */
static double parts[] = {1, 1 + 0x1p-40, 1e9, 1, 1 + 0x1p-45, 1e9};
static double gaps[] = {INFINITY, 1, INFINITY, INFINITY, 4, INFINITY};
static double few[] = {0.1, 0.2, INFINITY, 0.1, 0.4, 0.9};

static int32_t solve(void) { return sigdorf_solve(2, 0, arcs, 4, nothing, 0, SIGDORF_USUAL_BIDS, choice, 2, prices, 2, objects, 2, &found); }
static int32_t solve_from(void) { return sigdorf_solve(2, 4, arcs, 4, start, 4, SIGDORF_USUAL_BIDS, choice, 2, prices, 4, objects, 2, &found); }
static int32_t solve_table(void) { return sigdorf_solve_dense(2, 3, table, 6, 3, -1, nothing, 0, SIGDORF_USUAL_BIDS, choice, 2, prices, 3, objects, 2, &found); }
static int32_t solve_full(void) { return sigdorf_solve_dense(2, 3, full, 6, 3, -1, nothing, 0, SIGDORF_USUAL_BIDS, choice, 2, prices, 3, objects, 2, &found); }
static int32_t solve_same(void) { return sigdorf_solve_dense(2, 3, same, 6, 3, -1, nothing, 0, SIGDORF_USUAL_BIDS, choice, 2, prices, 3, objects, 2, &found); }
static int32_t table_from(void) { return sigdorf_solve_dense(2, 3, table, 6, 3, -1, start, 3, SIGDORF_USUAL_BIDS, choice, 2, prices, 3, objects, 2, &found); }
static int32_t stop_table(void) { return sigdorf_solve_dense(2, 3, table, 6, 3, -1, nothing, 0, 0, choice, 2, prices, 3, objects, 2, &found); }
static int32_t stop(void) { return sigdorf_solve(2, 4, arcs, 4, nothing, 0, 0, choice, 2, prices, 4, objects, 2, &found); }
static sigdorf_watch none = {0, -1, -1, 0, 0}, past = {1, -1, -1, 0, 0};
static int32_t watch_table(void) {
    return sigdorf_solve_dense_watched(2, 3, table, 6, 3, -1, nothing, 0, SIGDORF_USUAL_BIDS, &none, choice, 2, prices, 3, objects, 2, &found);
}
static int32_t stop_by_time(void) {
    return sigdorf_solve_watched(2, 4, arcs, 4, nothing, 0, SIGDORF_USUAL_BIDS, &past, choice, 2, prices, 4, objects, 2, &found);
}
static int32_t watch_doubles(void) {
    return sigdorf_solve_dense_f64_watched(2, 3, parts, 6, 3, SIGDORF_USUAL_BIDS, &none, choice, 2, objects, 2, &found_f64);
}
static int32_t by_messages(void) { return sigdorf_solve_by_messages(2, 0, arcs, 4, start, 2, SIGDORF_USUAL_BIDS, choice, 2, prices, 2, objects, 2, &found); }
static int32_t solve_both(void) { return sigdorf_solve(2, 0, both, 2, nothing, 0, SIGDORF_USUAL_BIDS, choice, 2, prices, 2, objects, 2, &found); }
static int32_t doubles(const double *costs, uint64_t bids) {
    return sigdorf_solve_dense_f64(2, 3, costs, 6, 3, bids, choice, 2, objects, 2, &found_f64);
}
static int32_t solve_doubles(void) { return doubles(parts, SIGDORF_USUAL_BIDS); }
static int32_t solve_gaps(void) { return doubles(gaps, SIGDORF_USUAL_BIDS); }
static int32_t stop_doubles(void) { return doubles(few, 0); }
static int32_t match(void) { return sigdorf_match(2, 3, parts, 6, 3, 1.5, SIGDORF_USUAL_BIDS, choice, 2, &found_f64); }
static int32_t watch_match(void) {
    return sigdorf_match_watched(2, 3, parts, 6, 3, 1.5, SIGDORF_USUAL_BIDS, &none, choice, 2, &found_f64);
}
static int32_t check(void) { return sigdorf_check(2, 0, arcs, 4, (uint32_t[]){1, 2}, 2, (int64_t[]){0, 0}, 2, 7, &found); }
static int32_t check_hall(void) { return sigdorf_check_hall(2, 0, both, 2, (uint32_t[]){0, 1}, 2, (uint32_t[]){1}, 1, &found); }

static int passed, failed;

static void refuse_each(const char *name, int32_t (*call)(void), int32_t status) {
    long refused = 0, bad = 0;
    for (;; refused++) {
        memset(choice, 0x55, sizeof choice);
        memset(prices, 0x55, sizeof prices);
        memset(objects, 0x55, sizeof objects);
        memset(&found, 0x55, sizeof found);
        memset(&found_f64, 0x55, sizeof found_f64);
        left = refused;
        int32_t got = call();
        if (taken != 0)
            bad++;
        if (left >= 0) {
            bad += got != status;
            break;
        }
        bad += got != SIGDORF_MEMORY || choice[0] != 0x55555555 || prices[0] != 0x5555555555555555 ||
               objects[0] != 0x55555555 || found.cost != 0x5555555555555555 || found_f64.kind != 0x55555555;
    }
    left = -1;
    printf("%s: %ld allocations refused in turn\n", name, refused);
    *(bad == 0 ? &passed : &failed) += 1;
}

/* ---- Many tables */

enum { TABLES = 3, PERSONS = 6 };
static double pairs[] = {1, 2, 3, 1};
static const sigdorf_table_f64 tables[TABLES] = {{2, 3, parts, 6, 3, 1.5}, {2, 2, pairs, 4, 2, 1}, {2, 3, few, 6, 3, 0.15}};

typedef struct many {
    int32_t status, statuses[TABLES];
    uint32_t choice[PERSONS];
    sigdorf_found_f64 found[TABLES];
} many;

static many match_many(void) {
    many m;
    memset(&m, 0x55, sizeof m);
    m.status = sigdorf_match_many(tables, TABLES, SIGDORF_USUAL_BIDS, m.choice, PERSONS, m.statuses, TABLES, m.found, TABLES);
    return m;
}

static many watch_many(void) {
    many m;
    memset(&m, 0x55, sizeof m);
    m.status = sigdorf_match_many_watched(tables, TABLES, SIGDORF_USUAL_BIDS, &none, m.choice, PERSONS, m.statuses, TABLES, m.found, TABLES);
    return m;
}

/* Whether one table alone is without memory, of which nothing is written, and the others are as they are with it. */
static int loses_one(const many *m, const many *whole) {
    many empty;
    int lost = 0;
    memset(&empty, 0x55, sizeof empty);
    for (int k = 0; k < TABLES; k++) {
        int is_lost = m->statuses[k] == SIGDORF_MEMORY;
        const many *wanted = is_lost ? &empty : whole;
        lost += is_lost;
        if (!is_lost && m->statuses[k] != whole->statuses[k]) return 0;
        if (memcmp(m->choice + 2 * k, wanted->choice + 2 * k, 2 * sizeof *m->choice)) return 0;
        if (memcmp(&m->found[k], &wanted->found[k], sizeof *m->found)) return 0;
    }
    return lost == 1 && m->status == SIGDORF_SOME;
}

static void refuse_each_of_many(const char *name, many (*call)(void)) {
    many whole = call();
    long refused = 0, bad = whole.status != SIGDORF_OPTIMAL || taken != 0;
    for (;; refused++) {
        left = refused;
        many m = call();
        bad += taken != 0;
        if (left >= 0) break;
        bad += !loses_one(&m, &whole);
    }
    left = -1;
    printf("%s: %ld allocations refused in turn\n", name, refused);
    *(bad == 0 ? &passed : &failed) += 1;
}

/* What is taken for one table serves the next ones: so few allocations more has each. */
static void want_few_allocations(void) {
    enum { COUNT = 100 };
    static sigdorf_table_f64 same[COUNT];
    static sigdorf_found_f64 each[COUNT];
    int32_t statuses[COUNT];
    uint32_t chosen[2 * COUNT];
    for (int k = 0; k < COUNT; k++) same[k] = tables[0];
    calls = 0;
    match();
    long alone = calls;
    calls = 0;
    int32_t status = sigdorf_match_many(same, COUNT, SIGDORF_USUAL_BIDS, chosen, 2 * COUNT, statuses, COUNT, each, COUNT);
    double more = (double)(calls - alone) / (COUNT - 1);
    printf("match of many tables: %ld allocations of one, %.2f of each more\n", alone, more);
    *(status == SIGDORF_OPTIMAL && more <= (double)alone - 5 && taken == 0 ? &passed : &failed) += 1;
}

/* Beside the caller's table a quarter more than it at most: without gaps, with a gate, or twice one after the other. */
static void want_little(const char *name, int is_match, int is_many) {
    enum { SIDE = 400 };
    static double costs[SIDE * SIDE];
    static uint32_t chosen[2 * SIDE], hall[SIDE];
    const sigdorf_table_f64 large = {SIDE, SIDE, costs, SIDE * SIDE, SIDE, 0.9}, twice[] = {large, large};
    int32_t statuses[2];
    sigdorf_found_f64 each[2];
    uint32_t state = 1;
    for (size_t k = 0; k < SIDE * SIDE; k++) {
        state = state * 1664525 + 1013904223;
        costs[k] = state * 0x1p-32;
    }
    most_bytes = bytes;
    size_t before = bytes;
    const size_t count = SIDE * SIDE;
    const uint64_t bids = SIGDORF_USUAL_BIDS;
    int32_t status = is_many    ? sigdorf_match_many(twice, 2, bids, chosen, 2 * SIDE, statuses, 2, each, 2)
                     : is_match ? sigdorf_match(SIDE, SIDE, costs, count, SIDE, 0.9, bids, chosen, SIDE, &found_f64)
                                : sigdorf_solve_dense_f64(SIDE, SIDE, costs, count, SIDE, bids, chosen, SIDE, hall,
                                                          SIDE, &found_f64);
    double share = (double)(most_bytes - before) / sizeof costs;
    printf("%s: %.2f of the table\n", name, share);
    *(status == SIGDORF_OPTIMAL && share <= 1.25 && bytes == before ? &passed : &failed) += 1;
}

int main(void) {
    refuse_each("solve", solve, SIGDORF_OPTIMAL);
    refuse_each("solve from a start", solve_from, SIGDORF_OPTIMAL);
    refuse_each("solve of a table", solve_table, SIGDORF_OPTIMAL);
    refuse_each("solve of a full table", solve_full, SIGDORF_OPTIMAL);
    refuse_each("solve of a table without an assignment", solve_same, SIGDORF_INFEASIBLE);
    refuse_each("solve of a table from a start", table_from, SIGDORF_OPTIMAL);
    refuse_each("solve of a table without bids", stop_table, SIGDORF_BRACKET);
    refuse_each("solve without bids", stop, SIGDORF_BRACKET);
    refuse_each("solve by messages", by_messages, SIGDORF_OPTIMAL);
    refuse_each("solve of what has no assignment", solve_both, SIGDORF_INFEASIBLE);
    refuse_each("solve of doubles", solve_doubles, SIGDORF_OPTIMAL);
    refuse_each("solve of doubles without an assignment", solve_gaps, SIGDORF_INFEASIBLE);
    refuse_each("solve of doubles without bids", stop_doubles, SIGDORF_BRACKET);
    refuse_each("solve of a table, watched", watch_table, SIGDORF_OPTIMAL);
    refuse_each("solve under a time that has passed", stop_by_time, SIGDORF_BRACKET);
    refuse_each("solve of doubles, watched", watch_doubles, SIGDORF_OPTIMAL);
    refuse_each("match", match, SIGDORF_OPTIMAL);
    refuse_each("match, watched", watch_match, SIGDORF_OPTIMAL);
    refuse_each_of_many("match of many tables", match_many);
    refuse_each_of_many("match of many tables, watched", watch_many);
    want_few_allocations();
    want_little("solve of doubles", 0, 0);
    want_little("match", 1, 0);
    want_little("match of many tables", 1, 1);
    refuse_each("check", check, SIGDORF_INVALID);
    refuse_each("check_hall", check_hall, SIGDORF_OPTIMAL);
    printf("%d passed, %d failed\n", passed, failed);
    return failed != 0;
}
