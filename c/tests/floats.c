/* The calls of doubles: small tables beside all their assignments, whose sums are added exactly here; each status; and
 * how the thread rounds. Each array ends right before a page that nobody may touch. The last line is `N passed, M
 * failed`. */
#define _DEFAULT_SOURCE
#include "sigdorf.h"
#include "fence.h"
#include "least.h"
#include "want.h"
#include <float.h>
#include <math.h>
#include <stdio.h>
#include <stdlib.h>
#include <string.h>
#ifdef __SSE2__
#include <xmmintrin.h>
#endif

/* So many bytes are read and written of what is found: the rest is for later versions. */
enum { MOST = 6, DIGITS = 70, UNTOUCHED = 0x55555555, WRITTEN = 32 };

/* ---- Exact sums */

/* A sum of doubles: digit k counts 2^(32 k - 1074). */
typedef struct amount {
    int64_t digit[DIGITS];
} amount;

static void add(amount *to, double value, int times) {
    int exponent;
    int64_t whole = (int64_t)ldexp(frexp(value, &exponent), 53);
    for (exponent -= 53; whole && (exponent < -1074 || whole % 2 == 0); exponent++) whole /= 2;
    for (int k = (exponent + 1074) / 32, shift = (exponent + 1074) % 32; whole; k++, shift = 0) {
        int64_t low = whole % (INT64_C(1) << (32 - shift));
        to->digit[k] += times * low * (INT64_C(1) << shift);
        whole /= INT64_C(1) << (32 - shift);
    }
}

static void settle(amount *a) {
    for (int k = 0; k + 1 < DIGITS; k++) {
        int64_t low = a->digit[k] & 0xffffffff;
        a->digit[k + 1] += (a->digit[k] - low) / (INT64_C(1) << 32);
        a->digit[k] = low;
    }
}

/* The sign of a sum. */
static int sign_of(amount a) {
    settle(&a);
    for (int k = DIGITS - 1; k >= 0; k--)
        if (a.digit[k]) return a.digit[k] < 0 ? -1 : 1;
    return 0;
}

static amount minus(amount a, const amount *b) {
    for (int k = 0; k < DIGITS; k++) a.digit[k] -= b->digit[k];
    return a;
}

static int compare(const amount *a, const amount *b) { return sign_of(minus(*a, b)); }

/* How far a double is from a sum. */
static amount distance(const amount *sum, double value) {
    amount a = *sum;
    add(&a, value, -1);
    if (sign_of(a) >= 0) return a;
    for (int k = 0; k < DIGITS; k++) a.digit[k] = -a.digit[k];
    return a;
}

static uint64_t bits_of(double value) {
    uint64_t bits;
    memcpy(&bits, &value, sizeof bits);
    return bits;
}

/* The next double on one side. */
static double beside(double value, int side) {
    if (value == 0) return side * 5e-324;
    uint64_t bits = bits_of(value) + ((value > 0) == (side > 0) ? 1 : UINT64_MAX);
    memcpy(&value, &bits, sizeof bits);
    return value;
}

/* Whether a double is the one next to a sum; an infinite one where that is beyond all by half a unit. */
static int is_next_to(double value, const amount *sum) {
    if (isinf(value)) {
        double most = value > 0 ? DBL_MAX : -DBL_MAX;
        amount more = *sum, left = distance(sum, most);
        add(&more, most, -1), add(&left, 0x1p970, -1);
        return sign_of(left) >= 0 && sign_of(more) == (value > 0 ? 1 : -1);
    }
    amount own = distance(sum, value);
    for (int side = -1; side <= 1; side += 2) {
        double other = beside(value, side);
        if (isinf(other)) continue;
        amount its = distance(sum, other);
        int order = compare(&own, &its);
        if (order > 0 || (order == 0 && bits_of(value) & 1)) return 0;
    }
    return 1;
}

/* ---- Calls */

typedef struct given {
    uint32_t persons, objects;
    size_t stride, costs_len, choice_len, hall_len;
    uint64_t bids;
    double gate, *costs;
    int is_match;
} given;

typedef struct result {
    int32_t status;
    uint32_t choice[MOST + 1], hall[MOST + 1];
    sigdorf_found_f64 found;
} result;

static fence costs_fence, choice_fence, hall_fence, found_fence;

static result call(const given *g) {
    result t;
    uint32_t *choice = before(choice_fence, g->choice_len * sizeof *choice);
    uint32_t *hall = before(hall_fence, g->hall_len * sizeof *hall);
    sigdorf_found_f64 *found = before(found_fence, WRITTEN);
    memset(choice, 0x55, g->choice_len * sizeof *choice);
    memset(hall, 0x55, g->hall_len * sizeof *hall);
    memset(found, 0x55, WRITTEN);
    memset(&t, 0x55, sizeof t);
    if (g->is_match)
        t.status = sigdorf_match(g->persons, g->objects, g->costs, g->costs_len, g->stride, g->gate, g->bids, choice,
                                 g->choice_len, found);
    else
        t.status = sigdorf_solve_dense_f64(g->persons, g->objects, g->costs, g->costs_len, g->stride, g->bids, choice,
                                           g->choice_len, hall, g->hall_len, found);
    memcpy(t.choice, choice, g->choice_len * sizeof *choice);
    memcpy(t.hall, hall, g->hall_len * sizeof *hall);
    memcpy(&t.found, found, WRITTEN);
    return t;
}

/* Whether nothing was written. */
static int is_untouched(const result *t) {
    result empty;
    memset(&empty, 0x55, sizeof empty);
    return !memcmp(t->choice, empty.choice, sizeof empty.choice) && !memcmp(t->hall, empty.hall, sizeof empty.hall) &&
           !memcmp(&t->found, &empty.found, sizeof empty.found);
}

static given given_new(uint32_t persons, uint32_t objects, size_t stride, int is_match) {
    size_t length = persons ? (persons - 1) * stride + objects : 0;
    given g = {persons, objects, stride, length, persons, persons, SIGDORF_USUAL_BIDS, 0, NULL, is_match};
    g.costs = before(costs_fence, length * sizeof *g.costs);
    return g;
}

static given given_of(uint32_t persons, uint32_t objects, const double *costs) {
    given g = given_new(persons, objects, objects, 0);
    memcpy(g.costs, costs, g.costs_len * sizeof *costs);
    return g;
}

/* ---- All assignments of a small table */

typedef struct search {
    const given *g;
    int by_objects; /* the lines are objects: of a match with more persons than objects */
    uint32_t lines, others;
    uint32_t now[MOST], best[MOST];
    int is_found;
    amount least;
} search;

static double cost_at(const search *s, uint32_t line, uint32_t other) {
    return s->g->costs[(s->by_objects ? other : line) * s->g->stride + (s->by_objects ? line : other)];
}

/* In the order by which the first of several least ones is found first. */
static void try_each(search *s, uint32_t line, uint32_t taken, amount sum) {
    if (line == s->lines) {
        if (s->is_found && compare(&sum, &s->least) >= 0) return;
        s->is_found = 1, s->least = sum;
        memcpy(s->best, s->now, sizeof s->now);
        return;
    }
    for (uint32_t k = 0; k < s->others; k++) {
        double cost = cost_at(s, line, k);
        if (taken >> k & 1 || cost == INFINITY || (s->g->is_match && cost > s->g->gate)) continue;
        amount more = sum;
        add(&more, cost, 1);
        s->now[line] = k;
        try_each(s, line + 1, taken | 1u << k, more);
    }
    if (!s->g->is_match) return;
    add(&sum, s->g->gate, 1);
    s->now[line] = SIGDORF_FREE;
    try_each(s, line + 1, taken, sum);
}

static search search_of(const given *g) {
    search s = {.g = g, .by_objects = g->is_match && g->persons > g->objects};
    s.lines = s.by_objects ? g->objects : g->persons;
    s.others = s.by_objects ? g->persons : g->objects;
    try_each(&s, 0, 0, (amount){{0}});
    return s;
}

/* Whether an answer is the first least one, with its sum. */
static int is_first(const search *s, const result *t) {
    uint32_t choice[MOST], pairs = 0;
    amount sum = {{0}};
    for (uint32_t i = 0; i < s->g->persons; i++) choice[i] = SIGDORF_FREE;
    for (uint32_t k = 0; k < s->lines; k++) {
        if (s->best[k] == SIGDORF_FREE) continue;
        choice[s->by_objects ? s->best[k] : k] = s->by_objects ? k : s->best[k];
        add(&sum, cost_at(s, k, s->best[k]), 1);
        pairs++;
    }
    return t->status == SIGDORF_OPTIMAL && !memcmp(choice, t->choice, s->g->persons * sizeof *choice) &&
           is_next_to(t->found.cost, &sum) && t->hall[0] == UNTOUCHED && t->found.kind == UNTOUCHED &&
           t->found.persons == (s->g->is_match ? pairs : UNTOUCHED);
}

/* Whether all arcs of the persons lead to the objects, which are fewer. */
static int is_hall(const given *g, const result *t) {
    if (t->found.objects >= t->found.persons || t->found.persons > g->persons) return 0;
    for (uint32_t i = 0; i < t->found.persons; i++)
        for (uint32_t j = 0; j < g->objects; j++) {
            int is_in = t->choice[i] >= g->persons;
            for (uint32_t k = 0; k < t->found.objects; k++) is_in |= t->hall[k] == j;
            if (!is_in && g->costs[t->choice[i] * g->stride + j] != INFINITY) return 0;
        }
    return 1;
}

/* Whether an answer that a limit has ended is an assignment, without pairs above a gate, whose sum is at most its gap above
 * the least one. */
static int is_bracket(const search *s, const result *t) {
    amount sum = {{0}}, least = s->least;
    uint32_t taken = 0, pairs = 0, lines = s->lines;
    for (uint32_t i = 0; i < s->g->persons; i++) {
        if (t->choice[i] == SIGDORF_FREE && s->g->is_match) continue;
        if (t->choice[i] >= s->g->objects || taken >> t->choice[i] & 1) return 0;
        double cost = s->g->costs[i * s->g->stride + t->choice[i]];
        if (s->g->is_match && cost > s->g->gate) return 0;
        taken |= 1u << t->choice[i];
        add(&sum, cost, 1);
        pairs++;
    }
    int is_sum = is_next_to(t->found.cost, &sum);
    for (uint32_t k = pairs; k < lines; k++) add(&sum, s->g->gate, 1);
    if (isfinite(t->found.gap)) add(&least, t->found.gap, 1);
    return is_sum && (isinf(t->found.gap) || compare(&sum, &least) <= 0) && t->found.gap >= 0 &&
           t->found.kind == SIGDORF_BIDS;
}

/* ---- Random tables */

static uint64_t seed = 88172645463325252;

static uint32_t below(uint32_t end) {
    seed ^= seed << 13, seed ^= seed >> 7, seed ^= seed << 17;
    return (uint32_t)((seed >> 20) % end);
}

static double part(void) { return (below(1u << 30) + below(1u << 23) * 0x1p-23) * 0x1p-30; }

enum { KINDS = 15 };

static double some_cost(uint32_t kind) {
    switch (kind) {
    case 0: return part();
    case 1: return below(5) / 10.0;
    case 2: return 100 * part() - 50;
    case 3: return 1e17 + (double)below(4) * 16;
    case 4: return ldexp(part() - 0.5, (int)below(2040) - 1020);
    case 5: return below(2) ? 5e-324 * below(8) : -5e-324 * below(8);
    case 6: return DBL_MAX * (part() - 0.5) * 2;
    case 7: return below(3) ? part() : DBL_MAX;
    case 8: return below(3) ? 1e-310 * part() : 1e-300;
    case 9: return 1 + 0x1p-52 * below(4);
    case 10: return (double)below(4) - 2;
    case 11: return below(4) ? -1e300 * part() : 5e-324 * below(3);
    case 12: return below(2) ? ldexp(below(4), 1010) : 5e-324 * below(3);
    case 13: return below(3) ? 1e295 * part() : DBL_MAX;
    default: return some_cost(below(KINDS - 1));
    }
}

/* A table with gaps, and between its rows numbers that would be refused. */
static given some_table(int is_match) {
    uint32_t persons = 1 + below(is_match ? 4 : 5);
    uint32_t objects = is_match ? 1 + below(5) : persons + below(MOST - persons + 1);
    given g = given_new(persons, objects, objects + (below(2) ? 0 : below(3)), is_match);
    uint32_t kind = below(KINDS), gaps = below(3) ? 0 : below(60);
    for (size_t k = 0; k < g.costs_len; k++)
        g.costs[k] = k % g.stride >= objects ? NAN : below(100) < gaps ? INFINITY : some_cost(kind);
    g.gate = below(3) ? some_cost(kind) : g.costs[0];
    if (!isfinite(g.gate)) g.gate = 0;
    return g;
}

static void brute_force(int count, int is_match) {
    int bad = 0, seen[8] = {0};
    for (int n = 0; n < count; n++) {
        given g = some_table(is_match);
        result t = call(&g);
        search s = search_of(&g);
        seen[t.status & 7]++;
        int is_right = s.is_found ? is_first(&s, &t) : t.status == SIGDORF_INFEASIBLE && is_hall(&g, &t);
        g.bids = below(3);
        t = call(&g);
        seen[t.status & 7]++;
        if (t.status == SIGDORF_BRACKET)
            is_right &= s.is_found && is_bracket(&s, &t);
        else
            is_right &= s.is_found ? is_first(&s, &t) : t.status == SIGDORF_INFEASIBLE && is_hall(&g, &t);
        bad += !is_right;
    }
    printf("%d tables%s: %d optimal, %d infeasible, %d brackets\n", count, is_match ? " with a gate" : "",
           seen[SIGDORF_OPTIMAL], seen[SIGDORF_INFEASIBLE], seen[SIGDORF_BRACKET]);
    want("tables of doubles", bad, 0);
}

/* ---- Statuses */

static void solves(void) {
    double costs[] = {1, 1e17, 2, 1e17, INFINITY, 0.5};
    given g = given_of(2, 3, costs);
    result t = call(&g);
    want("optimal", t.status, SIGDORF_OPTIMAL);
    want("first object", t.choice[0], 0);
    want("second object", t.choice[1], 2);
    want("cost", t.found.cost == 1.5, 1);
    want("untouched", t.found.kind == UNTOUCHED && t.found.persons == UNTOUCHED && t.hall[0] == UNTOUCHED, 1);
    double same[] = {INFINITY, 1, INFINITY, INFINITY, 1, INFINITY};
    g = given_of(2, 3, same);
    t = call(&g);
    want("infeasible", t.status, SIGDORF_INFEASIBLE);
    want("persons", t.found.persons, 2);
    want("objects", t.found.objects, 1);
    want("the object", t.hall[0], 1);
    double alone[] = {0.1};
    g = given_of(1, 1, alone);
    g.objects = 0;
    want("as many objects as persons", call(&g).found.cost == 0.1, 1);
    /* As doubles are added, both are 1e17. */
    double near[] = {5, 1e17, 4, 1e17};
    g = given_of(2, 2, near);
    want("sums are exact", call(&g).choice[0], 1);
    /* Halves are rounded to the even one, and a little more is not. */
    for (int n = 0; n < 3; n++) {
        double sums[] = {0x1p53, INFINITY, INFINITY, INFINITY, 1, INFINITY, INFINITY, INFINITY, n * 0x1p-900};
        g = given_of(3, 3, sums);
        want("a half", call(&g).found.cost == 0x1p53 + (n ? 2 : 0), 1);
        sums[0] = 0x1p53 + 2, sums[8] = -n * 0x1p-900;
        g = given_of(3, 3, sums);
        want("a half of an odd one", call(&g).found.cost == 0x1p53 + (n ? 2 : 4), 1);
    }
    double few[] = {1, 2, INFINITY, 1, 4, 9};
    g = given_of(2, 3, few);
    g.bids = 0;
    t = call(&g);
    want("bracket", t.status, SIGDORF_BRACKET);
    want("its gap", t.found.cost - t.found.gap <= 3 && t.found.cost >= 3, 1);
}

static void matches(void) {
    double costs[] = {1, 9, 9, 9, 0.5, 9, 9, 0.75, 9};
    given g = given_of(3, 3, costs);
    g.is_match = 1, g.gate = 2;
    result t = call(&g);
    want("match", t.status, SIGDORF_OPTIMAL);
    want("its pairs", t.choice[0] == 0 && t.choice[1] == 1 && t.choice[2] == SIGDORF_FREE, 1);
    want("how many", t.found.persons, 2);
    want("their cost", t.found.cost == 1.5, 1);
    g.gate = 9;
    t = call(&g);
    want("a pair of just the gate is made", t.found.persons, 3);
    g.gate = -1;
    t = call(&g);
    want("nobody", t.status == SIGDORF_OPTIMAL && t.found.persons == 0 && t.found.cost == 0, 1);
    g.gate = NAN;
    t = call(&g);
    want("no gate", t.status == SIGDORF_REFUSED && t.found.kind == SIGDORF_GATE && t.found.place == 0, 1);
    g.gate = INFINITY;
    want("an infinite gate", call(&g).found.kind, SIGDORF_GATE);
    for (uint32_t persons = 0; persons < 3; persons += 2) {
        g = given_new(persons, persons ? 0 : 3, 3, 1);
        t = call(&g);
        want("none of one side", t.status == SIGDORF_OPTIMAL && t.found.persons == 0 && t.found.cost == 0, 1);
        want("all are free", persons == 0 || (t.choice[0] & t.choice[1]) == SIGDORF_FREE, 1);
    }
}

static void want_refused(const char *what, const given *g, uint32_t kind, uint32_t place) {
    result t = call(g);
    want(what, t.status, SIGDORF_REFUSED);
    want(what, t.found.kind, kind);
    want(what, t.found.place, place);
    t.found.kind = t.found.place = UNTOUCHED;
    want(what, is_untouched(&t), 1);
}

static void refusals(int is_match) {
    double costs[12] = {0};
    given right = given_of(3, 4, costs), g = right;
    right.is_match = g.is_match = is_match;
    g.costs[7] = -INFINITY;
    want_refused("-infinity", &g, SIGDORF_COST, 7);
    g.costs[6] = NAN;
    want_refused("NaN", &g, SIGDORF_COST, 6);
    g.costs[6] = INFINITY, g.costs[7] = 0;
    want("+infinity", call(&g).status, SIGDORF_OPTIMAL);
    g.costs[6] = -NAN;
    g.persons = 2, g.objects = 3, g.choice_len = g.hall_len = 2;
    want_refused("NaN of a row further on", &g, SIGDORF_COST, 5);
    g = right;
    if (!is_match) {
        g.objects = 2;
        want_refused("few objects", &g, SIGDORF_OBJECTS, 0);
        g.persons = 0, g.choice_len = g.hall_len = 0;
        want_refused("no persons", &g, SIGDORF_PERSONS, 0);
    }
    g = given_new(1, 1, 1, is_match);
    g.objects = 4194304, g.stride = g.costs_len = 4194304;
    want_refused("many objects", &g, SIGDORF_OBJECTS, 0);
#define SIZES(change) g = right, change, want("sizes: " #change, call(&g).status == SIGDORF_SIZES, 1)
    SIZES(g.choice_len--);
    SIZES(g.costs_len--);
    SIZES(g.stride++);
    SIZES(g.stride--);
    SIZES(g.stride = SIZE_MAX);
    SIZES(g.stride = SIZE_MAX / 2 + 1);
    SIZES(g.stride = 0);
    SIZES(g.costs_len = 0);
    if (!is_match) SIZES(g.hall_len--);
    g = right, g.costs_len--;
    result t = call(&g);
    want("nothing is written", is_untouched(&t), 1);
}

/* The same answers however the thread rounds, and where it flushes small numbers to zero; what is set stays so. */
static void roundings(void) {
#ifdef __SSE2__
    double small[] = {0x1p-1074, 0x1p-1073, 0x1p-1074, 0x1p-1072}, near[] = {5, 1e17, 4, 1e17};
    for (unsigned set = 0; set < 8; set++) {
        unsigned kept = _mm_getcsr(), changed = kept | (set & 3) << 13 | (set >> 2 ? 0x8040u : 0);
        given g = given_of(2, 2, small);
        _mm_setcsr(changed);
        result t = call(&g);
        unsigned left = _mm_getcsr();
        _mm_setcsr(kept);
        want("small numbers", t.status == SIGDORF_OPTIMAL && t.choice[0] == 1 && bits_of(t.found.cost) == 3, 1);
        want("what is set stays", left, changed);
        g = given_of(2, 2, near);
        _mm_setcsr(changed);
        t = call(&g);
        _mm_setcsr(kept);
        want("sums", t.status == SIGDORF_OPTIMAL && t.choice[0] == 1 && t.found.cost == 1e17, 1);
    }
#endif
}

/* Beside the proved call, of whole numbers. */
static void beside_whole(uint32_t persons, uint32_t objects) {
    size_t count = (size_t)persons * objects;
    int64_t *whole = malloc(count * sizeof *whole), *prices = malloc(objects * sizeof *prices), none = 0;
    double *costs = malloc(count * sizeof *costs);
    uint32_t *choice = malloc(persons * sizeof *choice), *hall = malloc(persons * sizeof *hall);
    sigdorf_found found;
    sigdorf_found_f64 found_f64;
    for (size_t k = 0; k < count; k++) {
        int is_gap = below(10) < 3;
        whole[k] = is_gap ? -1 : (int64_t)below(1000000000);
        /* The same in parts of 2^-40, which are no whole numbers. */
        costs[k] = is_gap ? INFINITY : ldexp((double)whole[k], -40);
    }
    want("whole",
         sigdorf_solve_dense(persons, objects, whole, count, objects, -1, &none, 0, SIGDORF_USUAL_BIDS, choice, persons,
                             prices, objects, hall, persons, &found),
         SIGDORF_OPTIMAL);
    want("in parts",
         sigdorf_solve_dense_f64(persons, objects, costs, count, objects, SIGDORF_USUAL_BIDS, choice, persons, hall,
                                 persons, &found_f64),
         SIGDORF_OPTIMAL);
    want("as much", found_f64.cost == ldexp((double)found.cost, -40), 1);
    free(whole), free(prices), free(costs), free(choice), free(hall);
}

/* A table of whole numbers of 2^-20, of which none is small, in doubles too: with gaps, and with room between the rows.
 */
typedef struct both {
    uint32_t rows, columns;
    size_t stride;
    int64_t *whole, gate;
    double *costs;
} both;

static both some_both(int is_match) {
    both b = {.rows = 1 + below(70)};
    b.columns = is_match ? 1 + below(70) : b.rows + below(30);
    b.stride = b.columns + (below(2) ? 0 : below(9));
    /* Of a match the ways out are behind the columns. */
    size_t width = b.columns + (is_match ? b.rows : 0);
    b.whole = malloc(b.rows * width * sizeof *b.whole), b.costs = malloc(b.rows * b.stride * sizeof *b.costs);
    int64_t most = below(2) ? INT64_C(1) << 50 : 5;
    uint32_t gaps = below(2) ? 0 : below(95);
    b.gate = 1 + (int64_t)(part() * (double)most);
    for (uint32_t i = 0; i < b.rows; i++)
        for (size_t j = 0; j < width; j++) {
            int64_t cost = 1 + (int64_t)(part() * (double)most);
            if (below(100) < gaps && (is_match || j != i)) cost = NONE;
            if (j < b.columns) b.costs[i * b.stride + j] = cost == NONE ? INFINITY : ldexp((double)cost, -20);
            b.whole[i * width + j] = j >= b.columns ? b.gate : is_match && cost > b.gate ? NONE : cost;
        }
    return b;
}

/* Whether an answer has the least sum of all. */
static int is_least(const both *b, const uint32_t *choice, double cost, int is_match) {
    size_t width = b->columns + (is_match ? b->rows : 0);
    int64_t sum = 0, pairs = 0;
    unsigned char taken[128] = {0};
    for (uint32_t i = 0; i < b->rows; i++) {
        if (is_match && choice[i] == SIGDORF_FREE) {
            sum += b->gate;
            continue;
        }
        if (choice[i] >= b->columns || taken[choice[i]]++ || b->whole[i * width + choice[i]] == NONE) return 0;
        pairs += b->whole[i * width + choice[i]];
    }
    return cost == ldexp((double)pairs, -20) && sum + pairs == least_cost(b->whole, b->rows, (uint32_t)width, width);
}

static void beside_paths(int count, int is_match) {
    int bad = 0;
    uint32_t choice[128], hall[128];
    for (int n = 0; n < count; n++) {
        both b = some_both(is_match);
        size_t length = (b.rows - 1) * b.stride + b.columns;
        sigdorf_found_f64 found = {0};
        int32_t status = is_match
                             ? sigdorf_match(b.rows, b.columns, b.costs, length, b.stride, ldexp((double)b.gate, -20),
                                             SIGDORF_USUAL_BIDS, choice, b.rows, &found)
                             : sigdorf_solve_dense_f64(b.rows, b.columns, b.costs, length, b.stride, SIGDORF_USUAL_BIDS,
                                                       choice, b.rows, hall, b.rows, &found);
        bad += status != SIGDORF_OPTIMAL || !is_least(&b, choice, found.cost, is_match);
        free(b.whole), free(b.costs);
    }
    want("tables beside cheapest paths", bad, 0);
}

/* Tables near the greatest sizes, whose rows all are the same memory. */
static void limits(void) {
    enum { ROWS = 70, MOST_SIDE = SIGDORF_MOST_OBJECTS - 1, STRIDE = SIGDORF_MOST_OBJECTS };
    size_t row_bytes = STRIDE * sizeof(double), length = (ROWS - 1) * (size_t)STRIDE + MOST_SIDE;
    FILE *file = tmpfile();
    unsigned char *rows = file == NULL || ftruncate(fileno(file), (off_t)row_bytes) != 0
                              ? MAP_FAILED
                              : mmap(NULL, ROWS * row_bytes, PROT_NONE, MAP_PRIVATE | MAP_ANONYMOUS, -1, 0);
    int fails = rows == MAP_FAILED;
    for (size_t i = 0; !fails && i < ROWS; i++)
        fails = mmap(rows + i * row_bytes, row_bytes, PROT_READ | PROT_WRITE, MAP_SHARED | MAP_FIXED, fileno(file),
                     0) == MAP_FAILED;
    if (fails) {
        printf("skipped: the limits, for want of memory\n");
        return;
    }
    double *costs = (double *)rows;
    uint32_t choice[ROWS], hall[ROWS];
    sigdorf_found_f64 found;
#define SOLVE(persons, objects)                                                                                        \
    sigdorf_solve_dense_f64(persons, objects, costs, length, STRIDE, SIGDORF_USUAL_BIDS, choice, persons, hall,        \
                            persons, &found)
#define MATCH(persons, objects, gate)                                                                                  \
    sigdorf_match(persons, objects, costs, length, STRIDE, gate, SIGDORF_USUAL_BIDS, choice, persons, &found)
    for (size_t j = 0; j < STRIDE; j++) costs[j] = 1.5;
    want("too many entries", SOLVE(ROWS, MOST_SIDE), SIGDORF_REFUSED);
    want("their kind", found.kind, SIGDORF_TOO_MANY_ARCS);
    want("too many within the gate", MATCH(ROWS, MOST_SIDE - ROWS, 2.0), SIGDORF_REFUSED);
    want("their kind", found.kind, SIGDORF_TOO_MANY_ARCS);
    want("an object too many", MATCH(ROWS, MOST_SIDE - ROWS + 1, 2.0), SIGDORF_REFUSED);
    want("its kind", found.kind, SIGDORF_OBJECTS);
    for (size_t j = 0; j < STRIDE; j++) costs[j] = j % 59919 ? INFINITY : (double)(j / 59919) + 0.25;
    want("most of it gaps", SOLVE(ROWS, MOST_SIDE), SIGDORF_OPTIMAL);
    want("its sum", found.cost == 69 * 70 / 2 + 70 * 0.25, 1);
    want("the last object", choice[ROWS - 1], 69 * 59919);
    want("most beyond the gate", MATCH(ROWS, MOST_SIDE - ROWS, 9.5), SIGDORF_OPTIMAL);
    want("its pairs", found.persons == 10 && choice[9] == 9 * 59919 && choice[10] == SIGDORF_FREE, 1);
    /* All are near, and some cost a last bit more. */
    for (size_t j = 0; j < STRIDE; j++) costs[j] = 1 + 0x1p-52 * (double)(STRIDE - j);
    costs[0] = 1e9;
    want("as many objects as there may be", SOLVE(3, MOST_SIDE), SIGDORF_OPTIMAL);
    want("the cheapest of them", choice[0] + choice[1] + choice[2], 3 * (int64_t)MOST_SIDE - 6);
    munmap(rows, ROWS * row_bytes), fclose(file);
}

int main(int words, char **word) {
    int is_small = words > 1 && strcmp(word[1], "--small") == 0;
    costs_fence = fence_new(), choice_fence = fence_new(), hall_fence = fence_new(), found_fence = fence_new();
    solves();
    matches();
    refusals(0);
    refusals(1);
    roundings();
    beside_whole(60, 70);
    beside_whole(200, 200);
    if (!is_small) limits();
    beside_paths(is_small ? 50 : 1000, 0);
    beside_paths(is_small ? 50 : 1000, 1);
    brute_force(is_small ? 1000 : 20000, 0);
    brute_force(is_small ? 1000 : 20000, 1);
    printf("%d passed, %d failed\n", passed, failed);
    return failed != 0;
}
