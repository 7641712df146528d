/* From costs in whole units to costs as they are: docs/notes/exact.md has the argument. */
#include <math.h>
#include <stdlib.h>
#include <string.h>

#include "levels.h"

/* By so many powers of two a round is finer at most, and so many bits slacks have then; and what means every price
 * that is beyond all costs of a round. */
#define MOST_FINER 44
#define MOST_BITS 60
#define PLENTY (INT64_C(1) << 60)
/* So often a round looks for prices at which its choices stay, before it has the library look for other choices; and so
 * often a level is looked at for whether it leaves but one assignment. */
#define MOST_PASSES 128
/* So many entries of a row are looked at side by side; and many are near where one in so many was in the row before, or
 * where a row is hardly longer. */
#define LANES 4
#define MANY 24
/* So many objects a round may have. A test builds the extension with fewer. */
#ifndef MOST_OF_ROUND
#define MOST_OF_ROUND SIGDORF_MOST_OBJECTS
#endif

/* A power of two as two factors, so that a float and its product may have any exponents. */
typedef struct {
    double first, second;
} power;

static power power_of(int exponent) { return (power){by_power(1, exponent / 2), by_power(1, exponent - exponent / 2)}; }
static double times(double value, power by) { return value * by.first * by.second; }

static size_t count_of(const level *l) { return l->first[l->persons]; }

/* Beyond what slack an arc is far. */
static int64_t most_slack(const level *l) { return 4 * (int64_t)l->persons + 16; }

/* By how many powers of two a round of a level may be finer. */
static int most_finer(const level *l) {
    int room = MOST_BITS - bits_in((size_t)most_slack(l));
    return room < MOST_FINER ? room : MOST_FINER;
}

/* How many persons have an arc of slack 0 with a smaller tail than their choice. Where none has, the choices are least,
 * and the prices show it. */
static int64_t count_unsettled(const level *l) {
    int64_t count = 0;
    for (size_t i = 0; i < l->persons; i++) {
        int has_better = 0;
        for (size_t e = l->first[i]; e < l->first[i + 1]; e++)
            has_better |= l->slack[e] == 0 && l->tail[e] < l->tail[l->pick[i]];
        count += has_better;
    }
    return count;
}

/* Whether all of a person's arcs up to a slack but his choice lead to objects that are gone. */
static int has_one(const level *l, size_t person, int64_t most, const uint8_t *is_gone) {
    for (size_t e = l->first[person]; e < l->first[person + 1]; e++)
        if (l->slack[e] <= most && !is_gone[l->object[e]] && e != l->pick[person]) return 0;
    return 1;
}

/* Whether the arcs of a slack up to the number of persons leave but one assignment: whoever takes a dearer one pays
 * more, since tails make up for half a unit a person on either side. `left` has room for each person, `is_gone` for
 * each object. */
static int is_only(const level *l, uint32_t *left, uint8_t *is_gone) {
    size_t count = l->persons, before = 0;
    memset(is_gone, 0, l->objects);
    for (size_t i = 0; i < count; i++) left[i] = (uint32_t)i;
    for (int pass = 0; count != before && pass < MOST_PASSES; pass++) {
        before = count;
        count = 0;
        for (size_t k = 0; k < before; k++) {
            if (has_one(l, left[k], (int64_t)l->persons, is_gone))
                is_gone[l->object[l->pick[left[k]]]] = 1;
            else
                left[count++] = left[k];
        }
        /* Next time the other way around: most ways lead on in one of these orders. */
        for (size_t k = 0; k < count / 2; k++) {
            uint32_t other = left[k];
            left[k] = left[count - 1 - k];
            left[count - 1 - k] = other;
        }
    }
    return !count;
}

/* Leaves out arcs that no later round brings near. */
static void drop_far(level *l) {
    int64_t most = most_slack(l);
    size_t count = 0, e = 0;
    for (size_t i = 0; i < l->persons; i++) {
        size_t end = l->first[i + 1];
        l->first[i] = (uint32_t)count;
        for (; e < end; e++) {
            if (l->slack[e] > most) continue;
            if (l->pick[i] == e) l->pick[i] = (uint32_t)count;
            l->object[count] = l->object[e];
            if (l->entry) l->entry[count] = l->entry[e];
            l->slack[count] = l->slack[e];
            l->tail[count++] = l->tail[e];
        }
    }
    l->first[l->persons] = (uint32_t)count;
}

/* By how many powers of two the next unit is finer: about as many as the sum of the choices' slacks allows. */
static int step_of(const level *l) {
    double gap = 0;
    power units = power_of(l->unit);
    for (size_t i = 0; i < l->persons; i++) {
        double least = INFINITY;
        for (size_t e = l->first[i]; e < l->first[i + 1]; e++) {
            double cost = (double)l->slack[e] + times(l->tail[e], units);
            least = cost < least ? cost : least;
        }
        gap += times(l->tail[l->pick[i]], units) - least;
    }
    int exponent, most = most_finer(l);
    if (!(gap > 0)) return most;
    frexp(gap, &exponent);
    int by = 29 - exponent;
    return by < 1 ? 1 : by > most ? most : by;
}

/* Slacks in a unit finer by so many powers of two: their sum at the choices, whether they leave tails, and by how many
 * places all of them can be shifted to the right, if they don't. */
typedef struct {
    int64_t gap;
    int by, has_tails, spare;
} step;

/* Makes slacks in a unit finer by so many powers of two, into `finer`, so that each person's least is 0. */
static step in_finer(const level *l, int by, int64_t *finer) {
    step s = {.by = by};
    uint64_t bits = 0;
    power units = power_of(l->unit + by);
    for (size_t i = 0; i < l->persons; i++) {
        size_t end = l->first[i + 1];
        int64_t least = INT64_MAX;
        for (size_t e = l->first[i]; e < end; e++) {
            double tail = times(l->tail[e], units), whole = nearest(tail);
            /* One that is next to nothing in this unit may have run under. */
            s.has_tails |= tail != whole || (tail == 0 && l->tail[e] != 0);
            finer[e] = (l->slack[e] << by) + (int64_t)whole;
            least = finer[e] < least ? finer[e] : least;
        }
        for (size_t e = l->first[i]; e < end; e++) {
            finer[e] -= least;
            bits |= (uint64_t)finer[e];
        }
        s.gap += finer[l->pick[i]];
    }
    int twos = s.has_tails ? 0 : bits ? __builtin_ctzll(bits) : by;
    s.spare = twos < by ? twos : by;
    return s;
}

static int64_t price_in_finer(const level *l, size_t object, int by) {
    return l->price[object] > PLENTY >> by ? PLENTY : l->price[object] << by;
}

/* Takes the unit of a step, and the slacks in it: or one that is coarser than that, where nothing is lost by it. */
static void take_finer(level *l, step s, const int64_t *finer) {
    size_t count = count_of(l);
    power units = power_of(l->unit + s.by), back = power_of(-l->unit - s.by);
    for (size_t e = 0; e < count; e++) {
        l->tail[e] -= times(nearest(times(l->tail[e], units)), back);
        l->slack[e] = finer[e] >> s.spare;
    }
    l->unit += s.by - s.spare;
    l->is_settled = !s.has_tails;
    for (size_t j = 0; j < l->objects; j++) l->price[j] = price_in_finer(l, j, s.by - s.spare);
}

struct lowering {
    int64_t dearer;
    uint32_t object;
};

/* A round's arcs that are near enough to be in a least assignment, as a problem of their own. */
typedef struct {
    size_t persons, objects, near;
    uint32_t *of_person, *of_object, *number; /* how many near arcs; the object's number within the round + 1, or 0 */
    uint32_t *person, *object;                /* by numbers within the round */
    uint32_t *place, *choice, *hall, *picked;
    sigdorf_arc *arcs;
    int64_t *prices, *dual, *change, *finer;
    uint8_t *seen; /* for each person and one more, or each object */
    /* Arcs by which a price may have to be lowered: how much dearer than a person's own, and the object; where each
     * person's begin, and what he has. */
    struct lowering *lowering;
    uint32_t *from, *own;
} nearby;

/* Takes room for all parts of a round of so many arcs: 0, or SIGDORF_MEMORY. */
static int take_room(room *from, nearby *r, size_t persons, size_t objects, size_t count) {
    size_t numbers = 7 * persons + 1 + 3 * (objects + 1) + count, longs = 2 * (objects + 1) + persons + count;
    char *block = block_of(from, numbers * 4 + (count + persons) * sizeof(sigdorf_arc) + longs * 8 + persons + 1 +
                                     objects + 16 * 8);
    if (!block) return SIGDORF_MEMORY;
    char *at = block;
    r->of_person = cut(&at, persons, 4);
    r->of_object = cut(&at, objects, 4);
    r->number = cut(&at, objects, 4);
    r->person = cut(&at, persons, 4);
    r->object = cut(&at, objects + 1, 4);
    r->place = cut(&at, count, 4);
    r->choice = cut(&at, persons, 4);
    r->hall = cut(&at, persons, 4);
    r->picked = cut(&at, persons, 4);
    r->own = cut(&at, persons, 4);
    r->from = cut(&at, persons + 1, 4);
    r->arcs = cut(&at, count + persons, sizeof(sigdorf_arc));
    /* These aren't wanted at the same time. */
    r->lowering = (void *)r->arcs;
    r->prices = cut(&at, objects + 1, 8);
    r->change = cut(&at, objects, 8);
    r->dual = cut(&at, persons, 8);
    r->finer = cut(&at, count, 8);
    r->seen = cut(&at, persons + 1 + objects, 1);
    return 0;
}

/* Lists the arcs below a window, but for a person's only one to an object's only one: he keeps it, at the price that it
 * has. */
static void list_near(const level *l, nearby *r, int64_t cost) {
    int64_t window = 2 * cost;
    memset(r->of_person, 0, l->persons * 4);
    memset(r->of_object, 0, l->objects * 4);
    for (size_t i = 0; i < l->persons; i++)
        for (size_t e = l->first[i]; e < l->first[i + 1]; e++)
            if (l->slack[e] < window) r->of_person[i]++, r->of_object[l->object[e]]++;
    r->near = r->persons = r->objects = 0;
    memset(r->number, 0, l->objects * 4);
    for (size_t i = 0; i < l->persons; i++) {
        size_t before = r->near;
        for (size_t e = l->first[i]; e < l->first[i + 1]; e++) {
            uint32_t j = l->object[e];
            if (l->slack[e] >= window || (r->of_person[i] == 1 && r->of_object[j] == 1)) continue;
            if (!r->number[j]) r->object[r->objects] = j, r->number[j] = (uint32_t)++r->objects;
            int64_t cap = l->price[j] < cost ? l->price[j] : cost;
            r->place[r->near] = (uint32_t)e;
            r->arcs[r->near++] = (sigdorf_arc){l->slack[e] - cap, (uint32_t)r->persons, r->number[j] - 1};
        }
        if (r->near > before) r->person[r->persons++] = (uint32_t)i;
    }
    /* One object more, that everybody may have at a cost which no least choice pays. */
    for (size_t i = 0; i < r->persons; i++)
        r->arcs[r->near + i] = (sigdorf_arc){cost, (uint32_t)i, (uint32_t)r->objects};
}

/* Asks the library for a least choice of the round's objects by its first arcs: 0, or a status. */
static int choose_near(job *w, nearby *r, size_t objects, size_t arcs) {
    size_t persons = r->persons;
    if (!persons) return STRANGE;
    if (arcs > SIGDORF_MOST_ARCS) {
        w->kind = SIGDORF_TOO_MANY_ARCS;
        return SIGDORF_REFUSED;
    }
    sigdorf_found found = {0};
    memset(r->prices, 0, objects * 8);
    memset(r->choice, 0, persons * 4);
    memset(r->hall, 0, persons * 4);
    const int64_t start = 0;
    sigdorf_watch watch = watch_of(w, 0);
    int32_t status = w->calls->solve((uint32_t)persons, (uint32_t)objects, r->arcs, arcs, &start, 0,
                                     bids_for(w->q.bids, persons), &watch, r->choice, persons, r->prices, objects,
                                     r->hall, persons, &found);
    take_watch(w, &watch);
    if (status == SIGDORF_BRACKET) w->kind = found.kind;
    if (status == SIGDORF_BRACKET || status == SIGDORF_MEMORY) return status;
    if (status != SIGDORF_OPTIMAL) return STRANGE;
    for (size_t i = 0; i < persons; i++) {
        if (r->choice[i] >= r->near) return STRANGE;
        r->picked[i] = r->arcs[r->choice[i]].object;
    }
    return 0;
}

/* Where the library takes no object more, everybody may have one that some least choice leaves over: it has no price at
 * any prices that show one. Where none is left over, the round can't be solved, as if its bids hadn't sufficed. */
static int take_left_over(job *w, nearby *r) {
    int status = choose_near(w, r, r->objects, r->near);
    if (status) return status;
    uint32_t object = 0;
    memset(r->seen, 0, r->objects);
    for (size_t i = 0; i < r->persons; i++) r->seen[r->picked[i]] = 1;
    while (object < r->objects && r->seen[object]) object++;
    if (object == r->objects) {
        w->kind = SIGDORF_BIDS;
        return SIGDORF_BRACKET;
    }
    for (size_t i = 0; i < r->persons; i++) r->arcs[r->near + i].object = object;
    return 0;
}

/* Solves a round: new choices, a dual of each person, and a change of each object's price. Else a status. */
static int solve_near(job *w, level *l, nearby *r, int64_t gap) {
    memset(r->dual, 0, l->persons * 8);
    memset(r->change, 0, l->objects * 8);
    if (gap == 0) return 0;
    list_near(l, r, gap + 1);
    int is_full = r->objects >= MOST_OF_ROUND, status = is_full ? take_left_over(w, r) : 0;
    size_t persons = r->persons, objects = r->objects + !is_full;
    if (!status) status = choose_near(w, r, objects, r->near + persons);
    if (status) return status;
    make_whole(r->prices, objects, r->picked, persons, r->seen);
    for (size_t i = 0; i < persons; i++) {
        l->pick[r->person[i]] = r->place[r->choice[i]];
        r->dual[r->person[i]] = r->arcs[r->choice[i]].cost + r->prices[r->picked[i]];
    }
    for (size_t j = 0; j < r->objects; j++) {
        int64_t price = l->price[r->object[j]];
        r->change[r->object[j]] = r->prices[j] - (price < gap + 1 ? price : gap + 1);
    }
    return 0;
}

/* Lists the arcs by which a price may have to be lowered so that the choices stay the best: of each person that has
 * some, how much dearer they are than his choice. An arc of a slack beyond 2 gaps is none of these, since no price is
 * lowered by more than one. */
static void list_lowering(const level *l, nearby *r, int64_t gap) {
    const int64_t *slack = r->finer;
    size_t near = 0, persons = 0;
    for (size_t i = 0; i < l->persons; i++) {
        size_t first = near, own = l->pick[i];
        for (size_t e = l->first[i]; e < l->first[i + 1]; e++) {
            if (slack[e] > 2 * gap || e == own) continue;
            r->lowering[near].dearer = slack[e] - slack[own];
            r->lowering[near++].object = l->object[e];
        }
        if (near == first) continue;
        r->own[persons] = l->object[own];
        r->from[persons++] = (uint32_t)first;
    }
    r->from[persons] = (uint32_t)near;
    r->persons = persons;
}

/* Lowers the price of what one person has, if another arc is better for him; answers whether it was. */
static int lower(nearby *r, size_t person) {
    int64_t least = INT64_MAX;
    for (size_t k = r->from[person]; k < r->from[person + 1]; k++) {
        int64_t change = r->lowering[k].dearer + r->change[r->lowering[k].object];
        least = change < least ? change : least;
    }
    int64_t *mine = &r->change[r->own[person]];
    if (least >= *mine) return 0;
    *mine = least;
    return 1;
}

/* Looks for prices, in the unit of a step, at which the choices of a level stay the best, by lowering the price of
 * whatever a person has while another arc is better for him: 1 where there are some, with their changes. If the choices
 * aren't the least, something is lowered around and around, and so by more than the sum of their slacks; nothing is,
 * where they are, since each step on the way from a price that stays lowers by one person's slack at most. Persons
 * take turns upwards and downwards, since most ways lead on in one of these orders. */
static int relax(job *w, const level *l, nearby *r, step s) {
    list_lowering(l, r, s.gap);
    memset(r->change, 0, l->objects * 8);
    int moves = s.gap > 0;
    for (int pass = 0; moves && pass < MOST_PASSES && !is_over(w); pass++) {
        moves = 0;
        for (size_t k = 0; k < r->persons; k++) moves |= lower(r, pass % 2 ? r->persons - 1 - k : k);
        for (size_t k = 0; k < r->persons; k++)
            if (r->change[r->own[k]] < -s.gap) return 0;
    }
    if (moves) return 0;
    for (size_t j = 0; l->objects > l->persons && j < l->objects; j++)
        if (price_in_finer(l, j, s.by) + r->change[j] < 0) return 0;
    return 1;
}

/* Takes the changes of a round into the level. */
static void take_changes(level *l, const nearby *r) {
    for (size_t i = 0; i < l->persons; i++)
        for (size_t e = l->first[i]; e < l->first[i + 1]; e++) l->slack[e] += r->change[l->object[e]] - r->dual[i];
    for (size_t j = 0; l->objects > l->persons && j < l->objects; j++) {
        int64_t price = l->price[j] + r->change[j];
        l->price[j] = price < PLENTY ? price : PLENTY;
    }
}

/* Takes the next level by the choices that there are, in the finest unit: 1 where they aren't the least in it, or it
 * isn't seen that they are. */
static int finer_by_prices(job *w, level *l, nearby *r) {
    step s = in_finer(l, most_finer(l), r->finer);
    if (!relax(w, l, r, s)) return 1;
    for (size_t j = 0; j < l->objects; j++) r->change[j] >>= s.spare;
    take_finer(l, s, r->finer);
    for (size_t i = 0; i < l->persons; i++) r->dual[i] = l->slack[l->pick[i]] + r->change[l->object[l->pick[i]]];
    take_changes(l, r);
    return 0;
}

/* Takes the next level by choices of the library's: 0, or a status. */
static int finer_by_library(job *w, level *l, nearby *r) {
    if (is_over(w)) {
        w->kind = SIGDORF_BIDS;
        return SIGDORF_BRACKET;
    }
    step s = in_finer(l, step_of(l), r->finer);
    while (2 * (s.gap + 1) > SIGDORF_MOST_COST) s = in_finer(l, s.by - 1, r->finer);
    take_finer(l, s, r->finer);
    int status = solve_near(w, l, r, s.gap >> s.spare);
    if (!status) take_changes(l, r);
    return status;
}

/* Room for so many arcs of another person after so many: 0, or SIGDORF_MEMORY. */
static int widen(const job *w, level *l, size_t count, size_t more) {
    workshop *shop = w->shop;
    int has_slacks = w->arcs || w->has_tails;
    if (shop->arcs - count < more) {
        size_t arcs = 4 * (shop->arcs + more), all = (w->arcs ? w->entries : w->q.count + w->outlets) + 1;
        if (arcs > all) arcs = all;
        void *object = realloc(shop->object, arcs * 4);
        if (!object) return SIGDORF_MEMORY;
        shop->object = object, shop->arcs = arcs;
    }
    if (has_slacks && shop->slacks < shop->arcs) {
        void *entry = realloc(shop->entry, shop->arcs * 4), *slack = realloc(shop->slack, shop->arcs * 8),
             *tail = realloc(shop->tail, shop->arcs * 8);
        if (entry) shop->entry = entry;
        if (slack) shop->slack = slack;
        if (tail) shop->tail = tail;
        if (!entry || !slack || !tail) return SIGDORF_MEMORY;
        shop->slacks = shop->arcs;
    }
    l->object = shop->object, l->entry = w->arcs ? shop->entry : NULL;
    l->slack = has_slacks ? shop->slack : NULL, l->tail = has_slacks ? shop->tail : NULL;
    return 0;
}

/* Two numbers that a vector of any machine holds. */
typedef uint64_t pair __attribute__((vector_size(16)));

static inline pair pair_at(const int64_t *numbers) {
    pair two;
    memcpy(&two, numbers, sizeof two);
    return two;
}

/* Whether one of some sums may be below a limit: the sign of what is left of it then. */
static inline int may_be_below(const int64_t *row, const int64_t *prices, pair limit) {
    pair any = pair_at(row) + pair_at(prices) - limit;
    for (size_t k = 2; k < LANES; k += 2) any |= pair_at(row + k) + pair_at(prices + k) - limit;
    return (any[0] | any[1]) >> 63 != 0;
}

/* Lists the columns of a row whose cost and price are below a limit together, and answers how many they are. */
static size_t list_below(const int64_t *restrict row, const int64_t *restrict prices, size_t objects, int64_t limit,
                         uint32_t *restrict to) {
    size_t count = 0, j = 0;
    pair limits = {(uint64_t)limit, (uint64_t)limit};
    while (j < objects) {
        size_t end = objects - j < LANES ? objects : j + LANES;
        if (end == j + LANES && !may_be_below(row + j, prices + j, limits)) {
            j = end;
            continue;
        }
        for (; j < end; j++) {
            to[count] = (uint32_t)j;
            count += (row[j] != NO_ENTRY) & (row[j] + prices[j] < limit);
        }
    }
    return count;
}

/* The same of a row without gaps in which many are: no choice is made on the way, which nobody could foresee. */
static size_t list_below_of_many(const int64_t *restrict row, const int64_t *restrict prices, size_t objects,
                                 int64_t limit, uint32_t *restrict to) {
    size_t count = 0, j = 0;
    pair limits = {(uint64_t)limit, (uint64_t)limit};
    for (; j + 2 <= objects; j += 2) {
        pair is_below = (pair_at(row + j) + pair_at(prices + j) - limits) >> 63;
        to[count] = (uint32_t)j;
        count += is_below[0];
        to[count] = (uint32_t)j + 1;
        count += is_below[1];
    }
    if (j < objects) {
        to[count] = (uint32_t)j;
        count += row[j] + prices[j] < limit;
    }
    return count;
}

/* The same of a person's entries. */
static size_t list_entries_below(const job *w, const level *l, size_t person, int64_t limit, size_t first) {
    size_t count = 0;
    for (size_t k = w->first[person]; k < w->first[person + 1]; k++) {
        l->object[first + count] = w->arcs[k].object;
        l->entry[first + count] = (uint32_t)k;
        count += w->arcs[k].cost + l->price[w->arcs[k].object] < limit;
    }
    return count;
}

/* The same of his way out, of a table that has some, which isn't beyond them: a gap is none of his arcs, though it
 * costs as much. */
static size_t list_way_out(const job *w, const level *l, size_t person, int64_t limit, size_t first, size_t count) {
    int64_t out = w->costs[w->q.count + person];
    size_t kept = 0;
    for (size_t e = first; w->has_gaps && e < first + count; e++) {
        size_t entry = person * w->width + l->object[e];
        l->object[first + kept] = l->object[e];
        kept += !(w->costs[entry] == out && is_gap(w, place_of(w, person, entry)));
    }
    if (!w->has_gaps) kept = count;
    l->object[first + kept] = (uint32_t)(w->width + person);
    return kept + (out < limit);
}

/* The same of the columns of a person's row. */
static size_t list_row_below(const job *w, const level *l, size_t person, int64_t limit, size_t first) {
    const int64_t *row = w->costs + person * w->width;
    size_t width = w->width, before = person ? first - l->first[person - 1] : 0;
    int are_many = (!w->has_gaps || w->outlets) && (width < 2 * MANY || before * MANY > width);
    size_t count = (are_many ? list_below_of_many : list_below)(row, l->price, width, limit, l->object + first);
    return w->outlets ? list_way_out(w, l, person, limit, first, count) : count;
}

/* Lists the arcs of a person that are less than a window worse than his choice: 0, or a status. */
static int list_person(const job *w, level *l, size_t person, int64_t window) {
    size_t first = l->first[person], choice = w->choice[person];
    if (widen(w, l, first, (w->arcs ? w->first[person + 1] - w->first[person] : w->width) + 1)) return SIGDORF_MEMORY;
    int64_t own = whole_at(w, choice) + l->price[object_of(w, person, choice)];
    size_t end = first + (w->arcs ? list_entries_below : list_row_below)(w, l, person, own + window, first);
    l->first[person + 1] = (uint32_t)end;
    if (!l->tail) {
        l->pick[person] = (uint32_t)arc_from(l, person, (uint32_t)object_of(w, person, choice));
        return 0;
    }
    double mine = 0;
    int is_other = w->has_tails && tail_of(w, person, choice, &mine);
    for (size_t e = first; e < end; e++) {
        size_t entry = entry_of(w, l, person, e);
        l->slack[e] = whole_at(w, entry) + l->price[l->object[e]] - own;
        l->tail[e] = mine;
        if (entry == choice)
            l->pick[person] = (uint32_t)e;
        else if (w->has_tails)
            is_other |= tail_of(w, person, entry, &l->tail[e]);
        if (l->slack[e] == 0 && l->tail[e] < mine) l->is_settled = 0;
    }
    return is_other ? STRANGE : 0;
}

/* Takes the ways out of a table for the gaps that cost as much: a person who has one leaves its object, whose price is
 * the least of all then, and so none. docs/notes/exact.md has the argument. */
static void take_ways_out(job *w, level *l) {
    int64_t least = l->price[0];
    for (size_t j = 0; j < w->width; j++) least = l->price[j] < least ? l->price[j] : least;
    for (size_t j = 0; j < w->width; j++) l->price[j] -= least;
    for (size_t i = 0; i < w->persons; i++) {
        size_t entry = w->choice[i];
        if (w->costs[entry] != w->costs[w->q.count + i] || !is_gap(w, place_of(w, i, entry))) continue;
        l->pick[i] = (uint32_t)(w->width + i);
        w->choice[i] = (uint32_t)entry_for(w, i, l->pick[i]);
    }
}

/* The first level, of a problem that was solved in whole units: its prices are made whole. Of whole costs it has just
 * the arcs that are as good as the choices. 0, or a status. */
static int first_level(job *w, level *l) {
    size_t persons = w->persons, objects = w->objects;
    char *at = block_of(&w->shop->level, (2 * persons + 1) * 4 + objects * 8 + persons + 1 + 4 * 8);
    if (!at) return SIGDORF_MEMORY;
    l->price = cut(&at, objects, 8);
    l->pick = cut(&at, persons, 4);
    l->first = cut(&at, persons + 1, 4);
    for (size_t i = 0; i < persons; i++) l->pick[i] = (uint32_t)object_of(w, i, w->choice[i]);
    size_t priced = w->arcs ? objects : w->width;
    memcpy(l->price, w->prices, objects * 8);
    make_whole(l->price, priced, l->pick, persons, cut(&at, persons + 1, 1));
    if (!w->arcs && w->outlets) take_ways_out(w, l);
    memcpy(w->prices, l->price, objects * 8);
    w->are_whole = 1;
    l->persons = persons, l->objects = objects, l->unit = w->unit, l->is_settled = 1, l->first[0] = 0;
    for (size_t i = 0; i < persons; i++) {
        int status = list_person(w, l, i, w->has_tails ? most_slack(l) + 1 : 1);
        if (status) return status;
    }
    for (size_t j = 0; j < objects; j++)
        l->price[j] = objects == persons ? 0 : l->price[j] < PLENTY ? l->price[j] : PLENTY;
    return 0;
}

/* Keeps a level's changes of prices for the answer: 0, or SIGDORF_MEMORY. */
static int keep_change(job *w, const level *l, const nearby *r) {
    size_t objects = l->objects;
    int64_t *changes = realloc(w->changes, (w->levels + 1) * objects * 8);
    if (!changes) return SIGDORF_MEMORY;
    w->changes = changes;
    int *units = realloc(w->units, (w->levels + 1) * sizeof *units);
    if (!units) return SIGDORF_MEMORY;
    w->units = units;
    memcpy(changes + w->levels * objects, r->change, objects * 8);
    units[w->levels++] = l->unit;
    return 0;
}

/* Takes levels until the choices are the least: 0, or a status. Where a limit has ended a round, the choices of the
 * level before it may be answered: whoever has a better arc gains less than a unit by it. */
static int settle(job *w, level *l, nearby *r) {
    while (!l->is_settled) {
        int unit = l->unit;
        if (finer_by_prices(w, l, r)) {
            int64_t left = count_unsettled(l);
            int status = finer_by_library(w, l, r);
            if (status == SIGDORF_BRACKET) w->gap = left, w->gap_unit = unit;
            if (status) return status;
        }
        if (w->q.wants_prices && keep_change(w, l, r)) return SIGDORF_MEMORY;
        if (l->is_settled || (l->is_settled = !count_unsettled(l))) return 0;
        drop_far(l);
    }
    return 0;
}

/* From a solution in whole units to the first least one of the costs as they are: 0, or SIGDORF_BRACKET with a gap, or
 * another status. */
int refine(job *w) {
    level l = {0};
    nearby r = {0};
    int is_one = 0, status = first_level(w, &l);
    if (status) return status;
    if (!l.is_settled) {
        if (take_room(&w->shop->round, &r, l.persons, l.objects, count_of(&l))) return SIGDORF_MEMORY;
        is_one = !w->q.wants_prices && is_only(&l, r.choice, r.seen);
        if (!is_one) status = settle(w, &l, &r);
        if (status && status != SIGDORF_BRACKET) return status;
    }
    if (!is_one && !status && take_first(&l)) return SIGDORF_MEMORY;
    for (size_t i = 0; i < l.persons; i++) w->choice[i] = (uint32_t)entry_of(w, &l, i, l.pick[i]);
    return status;
}
