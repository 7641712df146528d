/* The call over a table: each status, and random tables beside sigdorf_solve of the same arcs, written out here, and sigdorf_check. Each array ends right before a
 * page that nobody may touch, so that a read or a write behind it ends the program. The last line is `N passed, M failed`. */
#define _DEFAULT_SOURCE
#include "sigdorf.h"
#include "fence.h"
#include "want.h"
#include <inttypes.h>
#include <stdio.h>
#include <stdlib.h>
#include <string.h>

/* So many bytes are read and written of what is found, since a program of version 1.0 has no more. */
enum { MOST = 12, WRITTEN = 32 };

/* What a call is given: the problem, and lengths that may be wrong. */
typedef struct given {
    uint32_t persons, objects;
    size_t stride, costs_len, start_len, choice_len, prices_len, hall_len;
    int64_t none;
    uint64_t bids;
    int64_t *costs, *start;
} given;

typedef struct told {
    int32_t status;
    uint32_t choice[MOST], hall[MOST];
    int64_t prices[MOST];
    sigdorf_found found;
} told;

static fence costs_fence, start_fence, choice_fence, prices_fence, hall_fence, found_fence;

static told call_table(const given *g) {
    told t;
    uint32_t *choice = before(choice_fence, g->choice_len * sizeof *choice), *hall = before(hall_fence, g->hall_len * sizeof *hall);
    int64_t *prices = before(prices_fence, g->prices_len * sizeof *prices);
    sigdorf_found *found = before(found_fence, WRITTEN);
    memset(choice, 0x55, g->choice_len * sizeof *choice);
    memset(hall, 0x55, g->hall_len * sizeof *hall);
    memset(prices, 0x55, g->prices_len * sizeof *prices);
    memset(found, 0x55, WRITTEN);
    memset(&t, 0x55, sizeof t);
    t.status = sigdorf_solve_dense(g->persons, g->objects, g->costs, g->costs_len, g->stride, g->none, g->start, g->start_len, g->bids, choice,
                                   g->choice_len, prices, g->prices_len, hall, g->hall_len, found);
    memcpy(t.choice, choice, g->choice_len * sizeof *choice);
    memcpy(t.hall, hall, g->hall_len * sizeof *hall);
    memcpy(t.prices, prices, g->prices_len * sizeof *prices);
    memcpy(&t.found, found, WRITTEN);
    return t;
}

static sigdorf_arc arcs[MOST * MOST];

/* The arcs of a table; how many. */
static uint32_t list_arcs(const given *g) {
    uint32_t objects = g->objects ? g->objects : g->persons, count = 0;
    for (uint32_t i = 0; i < g->persons; i++)
        for (uint32_t j = 0; j < objects; j++)
            if (g->costs[i * g->stride + j] != g->none)
                arcs[count++] = (sigdorf_arc){g->costs[i * g->stride + j], i, j};
    return count;
}

/* The same by sigdorf_solve, with places of entries and objects in place of those of arcs. */
static told call_list(const given *g) {
    told t;
    uint32_t objects = g->objects ? g->objects : g->persons, count = list_arcs(g);
    memset(&t, 0x55, sizeof t);
    t.status = sigdorf_solve(g->persons, g->objects, arcs, count, g->start, g->start_len, g->bids, t.choice, g->choice_len, t.prices, g->prices_len,
                             t.hall, g->hall_len, &t.found);
    if (t.status == SIGDORF_OPTIMAL || t.status == SIGDORF_BRACKET)
        for (uint32_t i = 0; i < g->persons; i++)
            t.choice[i] = arcs[t.choice[i]].object;
    if (t.status == SIGDORF_REFUSED && t.found.kind == SIGDORF_COST)
        t.found.place = arcs[t.found.place].person * objects + arcs[t.found.place].object;
    return t;
}

/* A problem of so many persons and objects, with all lengths right. */
static given given_new(uint32_t persons, uint32_t objects, size_t stride) {
    static int64_t nothing;
    uint32_t meant = objects ? objects : persons;
    given g = {persons, objects, stride, (persons - 1) * stride + meant, 0, persons, meant, persons, INT64_MAX, SIGDORF_USUAL_BIDS, NULL, &nothing};
    g.costs = before(costs_fence, g.costs_len * sizeof *g.costs);
    return g;
}

static given given_of(uint32_t persons, uint32_t objects, size_t stride, const int64_t *costs) {
    given g = given_new(persons, objects, stride);
    memcpy(g.costs, costs, g.costs_len * sizeof *costs);
    return g;
}

static void solves(void) {
    const int64_t GAP = -7, FAR = INT64_MIN;
    /* Two persons, three objects, and a place between the rows that nobody looks at. */
    int64_t costs[] = {1, 2, GAP, FAR, 1, 4, 9};
    given g = given_of(2, 3, 4, costs);
    g.none = GAP;
    told t = call_table(&g);
    want("optimal", t.status, SIGDORF_OPTIMAL);
    want("cost", t.found.cost, 3);
    want("first object", t.choice[0], 1);
    want("second object", t.choice[1], 0);
    want("price of nobody's object", t.prices[2], 0);
    want("untouched", t.found.kind, 0x55555555);
    want("untouched", t.hall[0], 0x55555555);
    int64_t start[] = {t.prices[0], t.prices[1], t.prices[2]};
    g.start = start, g.start_len = 3;
    want("from its prices", call_table(&g).found.cost, 3);
    start[1] = -1;
    t = call_table(&g);
    want("start", t.status, SIGDORF_START);
    want("start's fault", t.found.kind, SIGDORF_PRICE);
    want("start's place", t.found.place, 1);
    g.start_len = 0, g.bids = 0;
    t = call_table(&g);
    want("bracket", t.status, SIGDORF_BRACKET);
    want("bound", t.found.lower <= 3 && 3 <= t.found.cost, 1);
    want("objects of a bracket", t.choice[0] + t.choice[1] < 4 && t.choice[0] != t.choice[1] && t.choice[0] != 2, 1);
    int64_t both[] = {GAP, 1, GAP, FAR, GAP, 1, GAP};
    g = given_of(2, 3, 4, both);
    g.none = GAP;
    t = call_table(&g);
    want("infeasible", t.status, SIGDORF_INFEASIBLE);
    want("persons", t.found.persons, 2);
    want("objects", t.found.objects, 1);
    want("the object", t.hall[0], 1);
    int64_t alone[] = {5};
    g = given_of(1, 0, 1, alone);
    want("as many objects as persons", call_table(&g).found.cost, 5);
    g.none = 5;
    want("no arc at all", call_table(&g).status, SIGDORF_INFEASIBLE);
}

static void refusals(void) {
    int64_t costs[12] = {0};
    given right = given_of(3, 4, 4, costs), g = right;
    costs[6] = SIGDORF_MOST_COST + 1;
    g = given_of(3, 4, 4, costs);
    told t = call_table(&g);
    want("cost", t.status, SIGDORF_REFUSED);
    want("its kind", t.found.kind, SIGDORF_COST);
    want("its place", t.found.place, 6);
    g.none = SIGDORF_MOST_COST + 1;
    want("a gap costs nothing", call_table(&g).status, SIGDORF_OPTIMAL);
    g = given_of(3, 2, 4, costs);
    want("few objects", call_table(&g).status, SIGDORF_REFUSED);
    want("their kind", call_table(&g).found.kind, SIGDORF_OBJECTS);
    g.persons = 0, g.costs_len = 0, g.choice_len = 0, g.hall_len = 0;
    want("no persons", call_table(&g).found.kind, SIGDORF_PERSONS);
    right = given_of(3, 4, 4, costs);
#define SIZES(change) g = right, change, want("sizes: " #change, call_table(&g).status, SIGDORF_SIZES)
    SIZES(g.choice_len--);
    SIZES(g.prices_len++);
    SIZES(g.hall_len--);
    SIZES(g.costs_len--);
    SIZES(g.stride++);
    SIZES(g.stride--);
    SIZES(g.stride = SIZE_MAX);
    SIZES(g.stride = SIZE_MAX / 2 + 1);
    SIZES(g.stride = 0);
    SIZES(g.costs_len = 0);
}

static uint64_t seed = 88172645463325252;

static uint32_t below(uint32_t end) {
    seed ^= seed << 13, seed ^= seed >> 7, seed ^= seed << 17;
    return (uint32_t)((seed >> 20) % end);
}

static int64_t some_cost(void) {
    switch (below(4)) {
    case 0: return below(3);
    case 1: return (int64_t)below(200) - 100;
    case 2: return (int64_t)below(2000000001) - SIGDORF_MOST_COST;
    default: return below(1000);
    }
}

/* A table with gaps of any number, and between its rows numbers that would be refused. */
static given some_table(uint32_t most) {
    uint32_t persons = 1 + below(most), objects = persons + (below(2) ? 0 : below(most + 1 - persons));
    given g = given_new(persons, objects == persons && below(2) ? 0 : objects, objects + (below(2) ? 0 : below(5)));
    const int64_t gaps[] = {0, 1, -1, INT64_MAX, INT64_MIN, 1000};
    uint32_t many = below(3) ? 0 : below(100);
    g.none = gaps[below(6)];
    for (size_t k = 0; k < g.costs_len; k++)
        g.costs[k] = k % g.stride >= objects ? INT64_MIN + 1 : below(100) < many ? g.none : some_cost();
    return g;
}

static int64_t least;

static void try_each(const given *g, uint32_t objects, uint32_t i, uint32_t taken, int64_t sum) {
    if (i == g->persons) {
        if (sum < least)
            least = sum;
        return;
    }
    for (uint32_t j = 0; j < objects; j++)
        if (!(taken >> j & 1) && g->costs[i * g->stride + j] != g->none)
            try_each(g, objects, i + 1, taken | 1u << j, sum + g->costs[i * g->stride + j]);
}

static void brute_force(int count) {
    int bad = 0;
    for (int n = 0; n < count; n++) {
        given g = some_table(6);
        told t = call_table(&g);
        least = INT64_MAX;
        try_each(&g, g.objects ? g.objects : g.persons, 0, 0, 0);
        int64_t sum = 0;
        if (t.status == SIGDORF_OPTIMAL)
            for (uint32_t i = 0; i < g.persons; i++)
                sum += g.costs[i * g.stride + t.choice[i]];
        bad += least == INT64_MAX ? t.status != SIGDORF_INFEASIBLE : t.status != SIGDORF_OPTIMAL || t.found.cost != least || sum != least;
    }
    printf("%d small tables beside all their assignments\n", count);
    want("small tables", bad, 0);
}

/* Whether the checker lets an optimal answer of a table pass, and nothing else was written. */
static int passes(const given *g, const told *t) {
    uint32_t objects = g->objects ? g->objects : g->persons, count = list_arcs(g), places[MOST];
    for (uint32_t i = 0; i < g->persons; i++)
        for (places[i] = 0; places[i] < count && (arcs[places[i]].person != i || arcs[places[i]].object != t->choice[i]); places[i]++)
            ;
    told empty;
    sigdorf_found found;
    memset(&empty, 0x55, sizeof empty);
    empty.found.cost = t->found.cost;
    return sigdorf_check(g->persons, g->objects, arcs, count, places, g->persons, t->prices, objects, t->found.cost, &found) == SIGDORF_OPTIMAL &&
           memcmp(t->hall, empty.hall, sizeof empty.hall) == 0 && memcmp(&t->found, &empty.found, sizeof empty.found) == 0;
}

/* Whether the checker lets persons who know too few objects pass, and nothing else was written. */
static int passes_hall(const given *g, const told *t) {
    uint32_t objects = g->objects ? g->objects : g->persons, count = list_arcs(g);
    told rest = *t;
    sigdorf_found found;
    memset(rest.choice, 0x55, t->found.persons * sizeof *rest.choice);
    memset(rest.hall, 0x55, t->found.objects * sizeof *rest.hall);
    memset(&rest.found.persons, 0x55, sizeof rest.found.persons);
    memset(&rest.found.objects, 0x55, sizeof rest.found.objects);
    told empty;
    memset(&empty, 0x55, sizeof empty);
    empty.status = t->status;
    return t->found.persons <= g->persons && t->found.objects < t->found.persons && memcmp(&rest, &empty, sizeof rest) == 0 &&
           sigdorf_check_hall(g->persons, objects, arcs, count, t->choice, t->found.persons, t->hall, t->found.objects, &found) == SIGDORF_OPTIMAL;
}

/* What the prices bound costs by, in scaled costs: the best of each row with its price, less all prices. */
static int64_t bound_of(const given *g, const told *t, uint32_t objects) {
    int64_t bound = 0, scale = g->persons + 1;
    for (uint32_t j = 0; j < objects; j++)
        bound -= t->prices[j];
    for (uint32_t i = 0; i < g->persons; i++) {
        int64_t best = INT64_MAX;
        for (uint32_t j = 0; j < objects; j++) {
            int64_t cost = g->costs[i * g->stride + j];
            if (cost != g->none && scale * cost + t->prices[j] < best)
                best = scale * cost + t->prices[j];
        }
        bound += best;
    }
    return bound;
}

/* Whether a bracket is an assignment and what its prices bound, rounded up. */
static int passes_bracket(const given *g, const told *t) {
    uint32_t objects = g->objects ? g->objects : g->persons, taken = 0;
    int64_t sum = 0;
    for (uint32_t i = 0; i < g->persons; i++) {
        if (t->choice[i] >= objects || taken >> t->choice[i] & 1 || g->costs[i * g->stride + t->choice[i]] == g->none)
            return 0;
        taken |= 1u << t->choice[i];
        sum += g->costs[i * g->stride + t->choice[i]];
    }
    int64_t over = t->found.lower * (int64_t)(g->persons + 1) - bound_of(g, t, objects);
    return sum == t->found.cost && t->found.lower <= sum && t->found.kind == SIGDORF_BIDS && 0 <= over && over <= g->persons;
}

/* Of several least assignments, prices and Hall sets, and of brackets, a table's answer may have others, and the least one where few bids
 * leave a list a bracket. */
static int agrees(const given *g, const told *table, const told *list) {
    if (memcmp(table, list, sizeof *table) == 0)
        return 1;
    if (table->status == SIGDORF_INFEASIBLE)
        return list->status == SIGDORF_INFEASIBLE && passes_hall(g, table);
    if (table->status == SIGDORF_BRACKET)
        return passes_bracket(g, table) && (list->status == SIGDORF_BRACKET || (list->status == SIGDORF_OPTIMAL &&
                                            table->found.lower <= list->found.cost && list->found.cost <= table->found.cost));
    if (table->status != SIGDORF_OPTIMAL || !passes(g, table))
        return 0;
    return list->status == SIGDORF_OPTIMAL ? table->found.cost == list->found.cost : list->status == SIGDORF_BRACKET;
}

static void beside_lists(int count) {
    int bad = 0, seen[8] = {0};
    for (int n = 0; n < count; n++) {
        given g = some_table(MOST);
        int64_t *start = before(start_fence, g.prices_len * sizeof *start);
        if (below(4) == 0) {
            for (size_t j = 0; j < g.prices_len; j++)
                start[j] = below(50) ? (int64_t)below(1000000) : (int64_t)below(3) - 1;
            g.start = start, g.start_len = g.prices_len;
        }
        if (below(4) == 0)
            g.bids = below(20);
        if (below(8) == 0)
            g.costs[below((uint32_t)g.costs_len)] = below(2) ? SIGDORF_MOST_COST + 1 : INT64_MIN;
        told table = call_table(&g), list = call_list(&g);
        seen[table.status & 7]++;
        bad += !agrees(&g, &table, &list);
    }
    printf("%d tables beside lists: %d optimal, %d infeasible, %d brackets, %d refused, %d starts\n", count, seen[SIGDORF_OPTIMAL],
           seen[SIGDORF_INFEASIBLE], seen[SIGDORF_BRACKET], seen[SIGDORF_REFUSED], seen[SIGDORF_START]);
    want("tables beside lists", bad, 0);
}

/* As many arcs as there may be, and one more. The table takes no memory but for the few pages that are written here, and no call takes much. */
static void limits(void) {
    enum { ROWS = 16384, COLUMNS = SIGDORF_MOST_ARCS / ROWS + 1 };
    size_t count = (size_t)ROWS * COLUMNS;
    int64_t *costs = calloc(count, sizeof *costs), *prices = calloc(COLUMNS, sizeof *prices);
    uint32_t *choice = calloc(ROWS, sizeof *choice), *hall = calloc(ROWS, sizeof *hall);
    sigdorf_found found;
    if (costs == NULL || prices == NULL || choice == NULL || hall == NULL) {
        printf("skipped: the limits, for want of memory\n");
        return;
    }
    /* The entries of these would be numbered from 0 to 2^32: it is refused before any is read, so the lengths need not be true. */
    want("too many entries", sigdorf_solve_dense(65536, 65536, costs, (size_t)1 << 32, 65536, 1, prices, 0, 1, choice, 65536, prices, 65536, hall, 65536, &found), SIGDORF_SIZES);
    const int64_t no_start = 0;
    want("as many arcs", sigdorf_solve_dense(ROWS, ROWS, costs, count, ROWS, 1, &no_start, 0, SIGDORF_USUAL_BIDS, choice, ROWS, prices, ROWS, hall, ROWS, &found),
         SIGDORF_OPTIMAL);
    want("their cost", found.cost, 0);
#define SOLVE() sigdorf_solve_dense(ROWS, COLUMNS, costs, count, COLUMNS, 1, prices, 1, 1, choice, ROWS, prices, COLUMNS, hall, ROWS, &found)
    for (size_t k = 0; k < ROWS; k++)
        costs[2 * k] = 1;
    costs[count - 1] = INT64_MAX;
    want("the last cost of as many", (SOLVE(), found.kind), SIGDORF_COST);
    want("its place", found.place, (int64_t)count - 1);
    costs[0] = 0;
    want("a cost behind as many", SOLVE(), SIGDORF_REFUSED);
    want("its kind", found.kind, SIGDORF_TOO_MANY_ARCS);
    want("its place", found.place, 0);
    costs[count - 2] = INT64_MAX;
    want("a cost among as many", (SOLVE(), found.kind), SIGDORF_COST);
    want("its place", found.place, (int64_t)count - 2);
    costs[count - 1] = costs[count - 2] = 0;
    want("too many arcs", SOLVE(), SIGDORF_REFUSED);
    want("their kind", found.kind, SIGDORF_TOO_MANY_ARCS);
    free(costs), free(prices), free(choice), free(hall);
}

int main(int words, char **word) {
    int is_small = words > 1 && strcmp(word[1], "--small") == 0;
    costs_fence = fence_new(), start_fence = fence_new(), choice_fence = fence_new();
    prices_fence = fence_new(), hall_fence = fence_new(), found_fence = fence_new();
    solves();
    refusals();
    brute_force(2000);
    beside_lists(is_small ? 10000 : 100000);
    if (!is_small)
        limits();
    printf("%d passed, %d failed\n", passed, failed);
    return failed != 0;
}
