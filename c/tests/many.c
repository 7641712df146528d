/* The call of many tables beside sigdorf_match of each: the same statuses, and the same bytes written; wrong lengths;
 * and how the thread rounds. Each array ends right before a page that nobody may touch. The last line is `N passed, M
 * failed`. */
#define _DEFAULT_SOURCE
#include "sigdorf.h"
#include "fence.h"
#include "want.h"
#include <float.h>
#include <math.h>
#include <stdio.h>
#include <stdlib.h>
#include <string.h>
#ifdef __SSE2__
#include <xmmintrin.h>
#endif

enum { TABLES = 7, SIDE = 9, UNTOUCHED = 0x55555555 };

/* What a call is given: tables, and lengths that may be wrong. */
typedef struct given {
    sigdorf_table_f64 tables[TABLES];
    size_t tables_len, choice_len, statuses_len, found_len;
    uint64_t bids;
} given;

/* All that it writes, each within room of its own. */
typedef struct result {
    int32_t status, statuses[TABLES + 1];
    uint32_t choice[TABLES * SIDE + 1];
    sigdorf_found_f64 found[TABLES + 1];
} result;

static fence tables_fence, choice_fence, statuses_fence, found_fence, costs_fences[TABLES];

static result call(const given *g) {
    result t;
    size_t choice_bytes = g->choice_len * sizeof *t.choice, statuses_bytes = g->statuses_len * sizeof *t.statuses;
    size_t found_bytes = g->found_len * sizeof *t.found, tables_bytes = g->tables_len * sizeof *g->tables;
    sigdorf_table_f64 *tables = before(tables_fence, tables_bytes);
    uint32_t *choice = before(choice_fence, choice_bytes);
    int32_t *statuses = before(statuses_fence, statuses_bytes);
    sigdorf_found_f64 *found = before(found_fence, found_bytes);
    memcpy(tables, g->tables, tables_bytes);
    memset(choice, 0x55, choice_bytes), memset(statuses, 0x55, statuses_bytes), memset(found, 0x55, found_bytes);
    memset(&t, 0x55, sizeof t);
    t.status = sigdorf_match_many(tables, g->tables_len, g->bids, choice, g->choice_len, statuses, g->statuses_len,
                                  found, g->found_len);
    memcpy(t.choice, choice, choice_bytes);
    memcpy(t.statuses, statuses, statuses_bytes);
    memcpy(t.found, found, found_bytes);
    return t;
}

/* The same by a call for each table. */
static result call_each(const given *g) {
    result t;
    uint32_t *choice = t.choice;
    memset(&t, 0x55, sizeof t);
    t.status = SIGDORF_OPTIMAL;
    for (size_t k = 0; k < g->tables_len; k++) {
        const sigdorf_table_f64 *a = &g->tables[k];
        t.statuses[k] = sigdorf_match(a->persons, a->objects, a->costs, a->costs_len, a->stride, a->gate, g->bids,
                                      choice, a->persons, &t.found[k]);
        if (t.statuses[k] != SIGDORF_OPTIMAL) t.status = SIGDORF_SOME;
        choice += a->persons;
    }
    return t;
}

static int are_same(const result *a, const result *b) {
    return a->status == b->status && !memcmp(a->statuses, b->statuses, sizeof a->statuses) &&
           !memcmp(a->choice, b->choice, sizeof a->choice) && !memcmp(a->found, b->found, sizeof a->found);
}

/* Whether nothing was written. */
static int is_untouched(const result *t) {
    result empty;
    memset(&empty, 0x55, sizeof empty);
    empty.status = t->status;
    return are_same(t, &empty);
}

/* Whether nothing was written to what later versions may write. */
static int is_reserved(const sigdorf_found_f64 *found) {
    sigdorf_found_f64 empty;
    memset(&empty, 0x55, sizeof empty);
    return !memcmp(found->reserved, empty.reserved, sizeof empty.reserved);
}

/* Puts a table behind the others, with lengths that are right. */
static double *put(given *g, uint32_t persons, uint32_t objects, size_t stride, double gate) {
    size_t length = persons ? (persons - 1) * stride + objects : 0, k = g->tables_len++;
    double *costs = before(costs_fences[k], length * sizeof *costs);
    g->tables[k] = (sigdorf_table_f64){persons, objects, costs, length, stride, gate};
    g->choice_len += persons, g->statuses_len++, g->found_len++;
    return costs;
}

static given given_new(void) { return (given){.bids = SIGDORF_USUAL_BIDS}; }

/* ---- Statuses */

static const double CLEAR[] = {1, 9, 9, 9, 0.5, 9, 9, 0.75, 9}, NEAR[] = {5, 1e17, 4, 1e17};

/* Two tables that can be solved, and one between them. */
static given around(uint32_t persons, const double *costs, double gate) {
    given g = given_new();
    memcpy(put(&g, 3, 3, 3, 2), CLEAR, sizeof CLEAR);
    memcpy(put(&g, persons, 2, 2, gate), costs, persons * 2 * sizeof *costs);
    memcpy(put(&g, 2, 2, 2, 1e18), NEAR, sizeof NEAR);
    return g;
}

/* Whether the first table and the last one have their answers. */
static int are_answered(const given *g, const result *t) {
    const uint32_t *last = t->choice + g->choice_len - 2;
    return t->statuses[0] == SIGDORF_OPTIMAL && t->statuses[2] == SIGDORF_OPTIMAL && t->choice[0] == 0 &&
           t->choice[1] == 1 && t->choice[2] == SIGDORF_FREE && t->found[0].persons == 2 && t->found[0].cost == 1.5 &&
           last[0] == 1 && last[1] == 0 && t->found[2].persons == 2 && t->found[2].cost == 1e17;
}

static void want_fault(const char *what, const given *g, int32_t status, uint32_t kind, uint32_t place) {
    result t = call(g);
    want(what, t.status, SIGDORF_SOME);
    want(what, t.statuses[1], status);
    want(what, t.found[1].kind, kind);
    want(what, t.found[1].place, place);
    want(what, g->tables[1].persons == 0 || t.choice[3] == UNTOUCHED, 1);
    want("the others are answered", are_answered(g, &t), 1);
}

static void solves(void) {
    given g = around(2, (double[]){3, 1, 2, 1}, 5);
    result t = call(&g);
    want("all are solved", t.status, SIGDORF_OPTIMAL);
    want("the one between", t.statuses[1] == SIGDORF_OPTIMAL && t.choice[3] == 1 && t.choice[4] == 0, 1);
    want("its cost", t.found[1].cost == 3 && t.found[1].persons == 2 && t.found[1].kind == UNTOUCHED, 1);
    want("what is reserved", is_reserved(&t.found[0]) && is_reserved(&t.found[1]) && is_reserved(&t.found[2]), 1);
    want("the others", are_answered(&g, &t), 1);
    g = around(0, CLEAR, 5);
    t = call(&g);
    want("a table of nobody", t.status == SIGDORF_OPTIMAL && t.found[1].persons == 0 && are_answered(&g, &t), 1);
    g = around(2, (double[]){3, 1, 2, 1}, 5);
    g.tables[1].objects = 0;
    t = call(&g);
    want("no objects", t.status == SIGDORF_OPTIMAL && (t.choice[3] & t.choice[4]) == SIGDORF_FREE, 1);
    g = around(1, (double[]){5, 5}, 5);
    g.tables[2] = g.tables[0], g.choice_len++;
    t = call(&g);
    want("costs that two share", t.status == SIGDORF_OPTIMAL && !memcmp(t.choice, t.choice + 4, 3 * sizeof *t.choice),
         1);
    g = given_new();
    t = call(&g);
    want("no table at all", t.status == SIGDORF_OPTIMAL && is_untouched(&t), 1);
}

static void refusals(void) {
    given g = around(2, (double[]){3, NAN, 2, 1}, 5);
    want_fault("NaN", &g, SIGDORF_REFUSED, SIGDORF_COST, 1);
    g = around(2, (double[]){3, INFINITY, 2, -INFINITY}, 5);
    want_fault("-infinity", &g, SIGDORF_REFUSED, SIGDORF_COST, 3);
    const double fine[] = {3, 1, 2, 1}, gates[] = {NAN, INFINITY, -INFINITY};
    for (int k = 0; k < 3; k++) {
        g = around(2, fine, gates[k]);
        want_fault("a gate", &g, SIGDORF_REFUSED, SIGDORF_GATE, 0);
    }
#define FAULT(change, status, kind, place) g = around(2, fine, 5), change, want_fault(#change, &g, status, kind, place)
    sigdorf_table_f64 *between = &g.tables[1];
    FAULT((between->persons = 1, g.choice_len--, between->objects = between->stride = between->costs_len = 4194304),
          SIGDORF_REFUSED, SIGDORF_OBJECTS, 0);
    FAULT(between->costs_len--, SIGDORF_SIZES, UNTOUCHED, UNTOUCHED);
    FAULT(between->stride++, SIGDORF_SIZES, UNTOUCHED, UNTOUCHED);
    FAULT(between->stride--, SIGDORF_SIZES, UNTOUCHED, UNTOUCHED);
    FAULT(between->stride = SIZE_MAX, SIGDORF_SIZES, UNTOUCHED, UNTOUCHED);
    FAULT(between->objects = UINT32_MAX, SIGDORF_SIZES, UNTOUCHED, UNTOUCHED);
    g = around(2, (double[]){0.1, 0.5, 0.5, 0.6}, 0.6), g.bids = 0;
    result t = call(&g);
    want("a limit", t.status == SIGDORF_SOME && t.statuses[1] == SIGDORF_BRACKET && t.found[1].kind == SIGDORF_BIDS, 1);
    want("what it leaves", t.found[1].cost - t.found[1].gap <= 0.7 && t.found[1].cost >= 0.7, 1);
}

/* Of the whole call: nothing is written, and no table is looked at. */
static void sizes(void) {
    given g;
    result t;
#define SIZES(change)                                                                                                  \
    g = around(2, (double[]){3, 1, 2, 1}, 5), change, t = call(&g),                                                    \
    want("sizes: " #change, t.status == SIGDORF_SIZES && is_untouched(&t), 1)
    SIZES(g.choice_len--);
    SIZES(g.choice_len++);
    SIZES(g.choice_len = 0);
    SIZES(g.statuses_len--);
    SIZES(g.statuses_len++);
    SIZES(g.found_len--);
    SIZES(g.found_len++);
    SIZES(g.tables_len--);
    SIZES(g.tables_len = 0);
    SIZES(g.tables[1].persons++);
    SIZES(g.tables[0].persons = g.tables[2].persons = UINT32_MAX);
    /* Together they are as many in 32 bits. */
    SIZES((g.tables[0].persons = UINT32_MAX, g.tables[1].persons = 6));
}

/* The same answers however the thread rounds, and where it flushes small numbers to zero; what is set stays so. */
static void roundings(void) {
#ifdef __SSE2__
    for (unsigned set = 0; set < 8; set++) {
        unsigned kept = _mm_getcsr(), changed = kept | (set & 3) << 13 | (set >> 2 ? 0x8040u : 0);
        given g = around(2, (double[]){0x1p-1074, 0x1p-1073, 0x1p-1074, 0x1p-1072}, 1);
        _mm_setcsr(changed);
        result t = call(&g);
        unsigned left = _mm_getcsr();
        _mm_setcsr(kept);
        want("small numbers", t.statuses[1] == SIGDORF_OPTIMAL && t.choice[3] == 1 && t.found[1].cost == 0x3p-1074, 1);
        want("the others", are_answered(&g, &t), 1);
        want("what is set stays", left, changed);
    }
#endif
}

/* ---- Random tables */

static uint64_t seed = 88172645463325252;

static uint32_t below(uint32_t end) {
    seed ^= seed << 13, seed ^= seed >> 7, seed ^= seed << 17;
    return (uint32_t)((seed >> 20) % end);
}

static double some_cost(uint32_t kind) {
    switch (kind) {
    case 0: return below(1u << 30) * 0x1p-30;
    case 1: return below(5) / 10.0;
    case 2: return (double)below(4) - 2;
    case 3: return 1e17 + (double)below(4) * 16;
    case 4: return ldexp(below(1u << 30) - 0x1p29, (int)below(2000) - 1040);
    case 5: return below(3) ? 1 + 0x1p-52 * below(4) : DBL_MAX;
    default: return below(9) ? some_cost(below(6)) : below(2) ? INFINITY : below(2) ? -INFINITY : NAN;
    }
}

/* Puts a table of any kind; one in some has a fault. */
static void put_some(given *g) {
    uint32_t persons = below(SIDE + 1), objects = below(SIDE + 1), kind = below(7);
    size_t stride = objects + (below(2) ? 0 : below(3)), k = g->tables_len;
    double *costs = put(g, persons, objects, stride, below(3) ? some_cost(kind) : 0.3);
    for (size_t e = 0; e < g->tables[k].costs_len; e++) costs[e] = e % stride < objects ? some_cost(kind) : NAN;
    if (below(20) == 0) g->tables[k].costs_len -= g->tables[k].costs_len > 0;
    if (below(20) == 0) g->tables[k].stride = objects - 1;
}

static void beside_each(int count) {
    int bad = 0, seen[9] = {0};
    for (int n = 0; n < count; n++) {
        given g = given_new();
        for (uint32_t left = below(TABLES + 1); left > 0; left--) put_some(&g);
        if (below(4) == 0) g.bids = below(4);
        result many = call(&g), each = call_each(&g);
        for (size_t k = 0; k < g.tables_len; k++) seen[many.statuses[k] & 7]++;
        seen[8] += many.status == SIGDORF_OPTIMAL;
        bad += !are_same(&many, &each);
    }
    printf("%d calls, %d of them optimal throughout; tables: %d optimal, %d brackets, %d refused, %d of wrong sizes\n",
           count, seen[8], seen[SIGDORF_OPTIMAL], seen[SIGDORF_BRACKET], seen[SIGDORF_REFUSED], seen[SIGDORF_SIZES]);
    want("tables beside one by one", bad, 0);
}

/* Tables so large that some are solved entry by entry, in any order of sizes, with few entries within the gate. */
static void large(int count) {
    enum { MOST = 120 };
    int bad = 0;
    double *costs = malloc((size_t)TABLES * MOST * MOST * sizeof *costs);
    uint32_t *choice = malloc(2 * (size_t)TABLES * MOST * sizeof *choice);
    for (int n = 0; n < count; n++) {
        sigdorf_table_f64 tables[TABLES];
        sigdorf_found_f64 found[TABLES], alone;
        int32_t statuses[TABLES];
        uint32_t persons = 0, kind = below(4);
        for (size_t k = 0; k < TABLES; k++) {
            uint32_t rows = 1 + below(below(2) ? MOST : 9), columns = 1 + below(below(2) ? MOST : 9);
            const double gates[] = {0.1, 0.75, below(2) ? -1 : 1, 1e17 + 16};
            double *own = costs + k * MOST * MOST, gate = gates[kind > 1 ? kind : below(2)];
            for (size_t e = 0; e < (size_t)rows * columns; e++) own[e] = some_cost(kind);
            tables[k] = (sigdorf_table_f64){rows, columns, own, (size_t)rows * columns, columns, gate};
            persons += rows;
        }
        int32_t status = sigdorf_match_many(tables, TABLES, SIGDORF_USUAL_BIDS, choice, persons, statuses, TABLES,
                                            found, TABLES);
        uint32_t *at = choice + persons;
        bad += status != SIGDORF_OPTIMAL;
        for (size_t k = 0; k < TABLES; at += tables[k++].persons) {
            const sigdorf_table_f64 *a = &tables[k];
            bad += sigdorf_match(a->persons, a->objects, a->costs, a->costs_len, a->stride, a->gate, SIGDORF_USUAL_BIDS,
                                 at, a->persons, &alone) != statuses[k] ||
                   alone.cost != found[k].cost || alone.persons != found[k].persons;
        }
        bad += memcmp(choice, choice + persons, persons * sizeof *choice) != 0;
    }
    want("large tables beside one by one", bad, 0);
    free(costs), free(choice);
}

int main(int words, char **word) {
    int is_small = words > 1 && strcmp(word[1], "--small") == 0;
    tables_fence = fence_new(), choice_fence = fence_new(), statuses_fence = fence_new(), found_fence = fence_new();
    for (size_t k = 0; k < TABLES; k++) costs_fences[k] = fence_new();
    solves();
    refusals();
    sizes();
    roundings();
    beside_each(is_small ? 2000 : 20000);
    large(is_small ? 5 : 100);
    printf("%d passed, %d failed\n", passed, failed);
    return failed != 0;
}
