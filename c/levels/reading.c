/* Reading costs: whole numbers to 10^9, or others as whole units and what is left of each. */
#include <float.h>
#include <math.h>
#include <string.h>

#include "levels.h"

/* The greatest cost is some 2^29 units, where costs are no whole numbers to 10^9. */
#define BITS 29
/* So many numbers are looked at side by side, which vectors of any machine can do; and so many between two looks at
 * whether there is more to see. */
#define LANES 4
#define BLOCK 256
/* So many numbers lie in a line of the cache. */
#define LINE 8
/* Costs are read as they are while a unit is within these powers of two, since then nothing runs over or under; finer
 * ones are read greater, and coarser ones smaller, by so many. */
#define FINE 900
#define COARSE (-850)
#define GREATER 600
#define SMALLER 100

static double lesser(double one, double other) { return other < one ? other : one; }
static double greater(double one, double other) { return other > one ? other : one; }

/* ---- What numbers there are */

/* The least and the greatest number of each lane, and what is NaN where a number isn't finite. */
typedef struct {
    double least[LANES], most[LANES], finite[LANES];
} lanes;

static inline void look_at_lanes(lanes *seen, const double *values, size_t count) {
    for (size_t l = 0; l < count; l++) {
        double value = values[l];
        seen->least[l] = value < seen->least[l] ? value : seen->least[l];
        seen->most[l] = value > seen->most[l] ? value : seen->most[l];
        seen->finite[l] += value - value;
    }
}

/* Looks for the least and the greatest double; answers whether all are finite. */
static int look_at_floats(const double *values, size_t count, double *least, double *most) {
    lanes now;
    for (size_t l = 0; l < LANES; l++) now.least[l] = INFINITY, now.most[l] = -INFINITY, now.finite[l] = 0;
    size_t e = 0;
    for (; e + LANES <= count; e += LANES) look_at_lanes(&now, values + e, LANES);
    look_at_lanes(&now, values + e, count - e);
    double finite = 0;
    for (size_t l = 0; l < LANES; l++) {
        finite += now.finite[l];
        *least = lesser(*least, now.least[l]);
        *most = greater(*most, now.most[l]);
    }
    return finite == 0;
}

/* The same of all runs. */
static int look_at_all_floats(const job *w, double *least, double *most) {
    int are_finite = 1;
    for (size_t run = 0; are_finite && run < runs_of(w); run++)
        are_finite = look_at_floats(run_at(w, run), run_length(w), least, most);
    return are_finite;
}

/* The first fault of costs, row by row: one that is no cost, or one entry more than are taken. */
static int refuse(job *w) {
    int is_float = w->q.type == 'd', is_list = w->q.row != NULL;
    size_t entries = w->outlets, length = run_length(w), place = 0;
    double sign = w->sign, most = most_of(w);
    w->kind = SIGDORF_TOO_MANY_ARCS, w->fault = 0;
    for (size_t run = 0; run < runs_of(w); run++)
        for (size_t e = 0; e < length; e++, place++) {
            double value = is_float ? sign * run_at(w, run)[e] : 0;
            entries += is_float ? !(value > most) : !is_gap(w, (uint32_t)place);
            if (entries > w->q.most_entries) return SIGDORF_REFUSED;
            if (value > -INFINITY && !(is_list && value == INFINITY)) continue;
            w->kind = SIGDORF_COST, w->fault = (uint32_t)place;
            return SIGDORF_REFUSED;
        }
    return SIGDORF_REFUSED;
}

/* The least and the greatest cost, and how many are no gaps, where some may be: a status where something is no cost. */
static int look_at_some_floats(job *w) {
    double most = most_of(w), floor = w->outlets ? most : INFINITY, ceiling = w->outlets ? most : -INFINITY;
    double sign = w->sign;
    size_t entries = w->outlets, faults = 0, length = run_length(w);
    int is_list = w->q.row != NULL;
    for (size_t run = 0; run < runs_of(w); run++) {
        const double *values = run_at(w, run);
        for (size_t e = 0; e < length; e++) {
            double value = sign * values[e];
            int is_entry = !(value > most);
            faults += (size_t) !(value > -INFINITY) + (size_t)(is_list && !(value < INFINITY));
            entries += (size_t)is_entry;
            /* No choice is made on the way, which nobody could foresee. */
            double low = is_entry ? value : INFINITY, high = is_entry ? value : -INFINITY;
            floor = low < floor ? low : floor;
            ceiling = high > ceiling ? high : ceiling;
        }
    }
    w->floor = floor, w->ceiling = ceiling, w->entries = entries;
    return faults ? refuse(w) : 0;
}

/* Whether doubles are all whole numbers to 10^9. */
static int are_small(const job *w) {
    if (!(w->floor >= -SIGDORF_MOST_COST && w->ceiling <= SIGDORF_MOST_COST)) return 0;
    if (w->q.has_limit && nearest(w->q.limit) != w->q.limit) return 0;
    double sign = w->sign, most = w->has_gaps ? w->ceiling : INFINITY;
    size_t length = run_length(w);
    for (size_t run = 0; run < runs_of(w); run++) {
        const double *values = run_at(w, run);
        for (size_t e = 0; e < length; e++) {
            double value = sign * values[e];
            if ((nearest(value) != value) & !(value > most)) return 0;
        }
    }
    return 1;
}

static int look_over_floats(job *w) {
    double least = INFINITY, most = -INFINITY;
    if (!w->q.has_limit && look_at_all_floats(w, &least, &most)) {
        w->floor = w->sign > 0 ? least : -most;
        w->ceiling = w->sign > 0 ? most : -least;
    } else {
        int status = look_at_some_floats(w);
        if (status) return status;
        if (w->entries == 0) w->floor = w->ceiling = 0;
    }
    w->has_gaps = w->entries < w->q.count + w->outlets;
    w->is_small = are_small(w);
    return 0;
}

/* Whether whole numbers are all to 10^9. A uint64 just below 2^64 isn't the negative number of the same bits. */
static int are_small_whole(const job *w) {
    const uint64_t *values = w->q.costs, most = SIGDORF_MOST_COST, more = w->q.type == 'q' ? most : 0;
    uint64_t beyond = w->q.has_limit && w->q.whole_limit + more > most + more;
    for (size_t e = 0, end; !beyond && e < w->q.count; e = end) {
        end = w->q.count - e < BLOCK ? w->q.count : e + BLOCK;
        for (size_t k = e; k < end; k++) beyond |= values[k] + more > most + more;
    }
    return !beyond;
}

static void look_over_whole(job *w) {
    w->is_small = are_small_whole(w);
    if (w->is_small && !w->q.has_limit) return;
    /* Keys with another highest bit, as numbers with a sign, since vectors compare these. */
    uint64_t high = UINT64_C(1) << 63, turned = turned_bits(w) ^ high;
    int64_t limit = w->q.has_limit ? (int64_t)(key_at(w, NO_PLACE) ^ high) : INT64_MAX, least = limit, most = INT64_MIN;
    const uint64_t *values = w->q.costs;
    size_t gaps = 0;
    for (size_t e = 0; e < w->q.count; e++) {
        int64_t key = (int64_t)(values[e] ^ turned);
        gaps += key > limit;
        least = key < least ? key : least;
        most = key > most ? key : most;
    }
    /* A way out costs the limit. */
    w->least_key = (uint64_t)least ^ high, w->most_key = (uint64_t)(w->q.has_limit ? limit : most) ^ high;
    w->entries -= gaps;
    w->has_gaps = w->entries < w->q.count + w->outlets;
}

int look_over(job *w) {
    int status = 0;
    w->entries = w->q.count + w->outlets;
    if (w->q.type == 'd')
        status = look_over_floats(w);
    else
        look_over_whole(w);
    return status || w->entries <= w->q.most_entries ? status : refuse(w);
}

/* ---- The unit */

/* The finest unit in which costs from `least` to `most`, counted from the least, are within 10^9, and in which they are
 * whole numbers of up to 2^50 units. */
static int unit_of(double least, double most) {
    /* Great ones smaller, so that their difference doesn't run over. */
    int down = greater(fabs(least), fabs(most)) > 0x1p1000 ? 4 : 0, exponent, widest;
    least = by_power(least, -down), most = by_power(most, -down);
    double span = most - least;
    frexp(greater(fabs(least), fabs(most)), &widest);
    if (!(span > 0)) return BITS - widest - down;
    frexp(span, &exponent);
    int unit = BITS + 1 - exponent;
    if (by_power(span, unit) > SIGDORF_MOST_COST - 2) unit--;
    return (unit < 50 - widest ? unit : 50 - widest) - down;
}

/* By what power of two costs are read in a unit. */
static int shift_of(int unit) { return unit > FINE ? GREATER : unit < COARSE ? -SMALLER : 0; }

/* What a number of up to 2^50 units is added to, as it is read, so that the sum is rounded to whole units, and so many
 * last bits of it are as many units. */
static double rounder_of(int unit) { return by_power(1.5, 52 - (unit - shift_of(unit))); }

static inline int64_t bits_of(double value) {
    int64_t bits;
    memcpy(&bits, &value, sizeof bits);
    return bits;
}
static int64_t units_of(double value, int unit) {
    double rounder = rounder_of(unit);
    return bits_of(by_power(value, shift_of(unit)) + rounder) - bits_of(rounder);
}

/* Takes into the greatest of each lane what is below a ceiling: no choice is made on the way, which nobody could
 * foresee. */
static inline void look_below(double *most, const double *values, size_t count, double sign, double ceiling) {
    for (size_t l = 0; l < count; l++) {
        double value = sign * values[l], below = value < ceiling ? value : -INFINITY;
        most[l] = below > most[l] ? below : most[l];
    }
}

/* The greatest of some doubles, turned, that is below a ceiling. */
static double greatest_below(const double *values, size_t count, double sign, double ceiling) {
    double most[LANES], all = -INFINITY;
    size_t e = 0;
    for (size_t l = 0; l < LANES; l++) most[l] = -INFINITY;
    for (; e + LANES <= count; e += LANES) look_below(most, values + e, LANES, sign, ceiling);
    look_below(most, values + e, count - e, sign, ceiling);
    for (size_t l = 0; l < LANES; l++) all = greater(all, most[l]);
    return all;
}

/* Whether the greatest cost is a gate: so great beside all others, which are up to `inner`, that the fewest of it are
 * wanted first of all. */
static int find_gate(const job *w, double *inner) {
    double widest = (w->ceiling - w->floor) / (4 * (double)w->persons), high = w->floor;
    size_t length = run_length(w);
    for (size_t run = 0; run < runs_of(w); run++) {
        const double *values = run_at(w, run);
        for (size_t e = 0, next; e < length; e = next) {
            next = length - e < BLOCK ? length : e + BLOCK;
            high = greater(high, greatest_below(values + e, next - e, w->sign, w->ceiling));
            if (!(high - w->floor <= widest)) return 0;
        }
    }
    *inner = high;
    return w->ceiling > w->floor;
}

/* Takes for a gate a cost that is more than all others together can make up for, and that is less than the gate, and
 * the unit of the others, where there are such ones. */
static void take_gate(job *w, double inner) {
    int unit = unit_of(w->floor, inner) + 1;
    int64_t span, cost;
    do {
        unit--;
        span = units_of(inner, unit) - units_of(w->floor, unit) + 2;
        cost = 2 * (int64_t)w->persons * span;
    } while (cost > SIGDORF_MOST_COST);
    /* Less also where the least cost was rounded up. */
    if (!(by_power(1.01 * (double)cost + 1, -unit) < w->ceiling - w->floor)) return;
    w->gate = w->ceiling, w->inner = inner, w->gate_span = span, w->gate_cost = cost, w->unit = unit;
}

/* Takes the unit. */
static void take_unit(job *w) {
    double inner;
    w->gate_cost = 0;
    w->unit = unit_of(w->floor, w->ceiling);
    /* Prices beside a gate are put right in 128 bits, which levels may go beyond. */
    if (!w->q.wants_levels && find_gate(w, &inner)) take_gate(w, inner);
    w->least = units_of(w->floor, w->unit);
}

/* Takes the unit of whole numbers beyond 10^9. */
static void take_whole_unit(job *w) {
    uint64_t span = w->most_key > w->least_key ? w->most_key - w->least_key : 0;
    while (span >> -w->unit >= UINT64_C(1) << BITS) w->unit--;
}

/* ---- Whole units */

/* A cost in whole units, and whether it leaves something. Of a table with ways out a gap costs what these do. */
static inline int64_t whole_of(const job *w, uint32_t place, double rounder, uint64_t *tails) {
    if (w->has_gaps && is_gap(w, place)) {
        if (w->arcs || !w->outlets) return NO_ENTRY;
        place = NO_PLACE;
    }
    if (w->q.type != 'd') {
        uint64_t key = key_at(w, place);
        if (w->is_small)
            return w->sign * (int64_t)(place == NO_PLACE ? w->q.whole_limit : ((const uint64_t *)w->q.costs)[place]);
        uint64_t units = (key - w->least_key) >> -w->unit;
        if (w->unit) units += (key - w->least_key) >> (-w->unit - 1) & 1;
        *tails |= (units << -w->unit) ^ (key - w->least_key);
        return (int64_t)units;
    }
    double value = float_at(w, place);
    if (w->is_small) return fabs(value) <= SIGDORF_MOST_COST ? (int64_t)value : 0;
    if (w->gate_cost && value == w->gate) return w->gate_cost;
    double read = value * w->scale, sum = read + rounder;
    /* A cost that ran under as it was read is no zero. */
    *tails |= (sum - rounder != read) | (read == 0 && value != 0);
    return (int64_t)((uint64_t)bits_of(sum) - (uint64_t)bits_of(rounder) - (uint64_t)w->least);
}

/* Doubles in whole units from the least one, in the caller's order, those above `most` as it: 0 where none has a tail.
 */
static uint64_t round_all(const double *restrict values, size_t count, double scale, double most, double rounder,
                          int64_t least, int64_t *restrict to) {
    uint64_t tails = 0, zero = (uint64_t)bits_of(rounder) + (uint64_t)least;
    for (size_t j = 0; j < count; j++) {
        double read = scale * values[j], value = read < most ? read : most, sum = value + rounder;
        to[j] = (int64_t)((uint64_t)bits_of(sum) - zero);
        tails |= (uint64_t)bits_of(sum - rounder - value);
    }
    return tails << 1;
}

/* The same of whole numbers, whose units are 2^down, and as their keys. */
static uint64_t round_all_whole(const uint64_t *restrict values, size_t count, uint64_t turned, uint64_t most, int down,
                                uint64_t least, int64_t *restrict to) {
    uint64_t tails = 0, half = (UINT64_C(1) << down) >> 1;
    for (size_t j = 0; j < count; j++) {
        uint64_t key = values[j] ^ turned, rest = (key < most ? key : most) - least;
        uint64_t units = (rest >> down) + ((rest & half) != 0);
        to[j] = (int64_t)units;
        tails |= (units << down) ^ rest;
    }
    return tails;
}

/* Whole numbers as they are, those above `most` as it, with all bits turned where `turned` has all and one added then,
 * which makes them negative. */
static void turn_all(const uint64_t *restrict values, size_t count, uint64_t turned, int64_t most,
                     int64_t *restrict to) {
    for (size_t j = 0; j < count; j++) {
        int64_t value = (int64_t)((values[j] ^ turned) - turned);
        to[j] = value < most ? value : most;
    }
}

/* Costs in whole units of what is written entry by entry; 0 where none has a tail. */
static uint64_t write_each(job *w, double rounder) {
    /* A copy that no pointer leads to, so that nothing of it is read again. */
    const job own = *w;
    uint64_t tails = 0;
    for (size_t k = 0; own.arcs && k < own.entries; k++)
        own.arcs[k].cost = whole_of(&own, own.place[k], rounder, &tails);
    for (size_t i = 0; !own.arcs && i < own.persons; i++)
        for (size_t e = i * own.width; e < (i + 1) * own.width; e++)
            own.costs[e] = whole_of(&own, place_of(&own, i, e), rounder, &tails);
    return tails;
}

/* Writes what a gate costs in the place of each. */
static void put_gates(const double *restrict values, size_t count, double sign, double inner, int64_t cost,
                      int64_t *restrict to) {
    for (size_t j = 0; j < count; j++) to[j] = sign * values[j] > inner ? cost : to[j];
}

/* A run of doubles of a table; 0 where none has a tail. */
static uint64_t write_floats(const job *w, const double *values, size_t count, double rounder, int64_t *to) {
    double most = w->gate_cost ? w->inner : w->outlets ? most_of(w) : INFINITY;
    uint64_t tails = round_all(values, count, w->sign * w->scale, w->scale * most, rounder, w->least, to);
    if (w->gate_cost) put_gates(values, count, w->sign, w->inner, w->gate_cost, to);
    return tails;
}

/* The same of whole numbers. */
static uint64_t write_whole(const job *w, const uint64_t *values, size_t count, int64_t *to) {
    if (!w->is_small) {
        uint64_t most = w->outlets ? key_at(w, NO_PLACE) : UINT64_MAX;
        return round_all_whole(values, count, turned_bits(w), most, -w->unit, w->least_key, to);
    }
    int64_t most = w->outlets ? w->sign * (int64_t)w->q.whole_limit : INT64_MAX;
    turn_all(values, count, w->sign < 0 ? UINT64_MAX : 0, most, to);
    return 0;
}

/* A run of a table; 0 where none has a tail. */
static uint64_t write_run(const job *w, size_t run, size_t length, double rounder, int64_t *to) {
    const double *values = run_at(w, run);
    return w->q.type == 'd' ? write_floats(w, values, length, rounder, to)
                            : write_whole(w, (const uint64_t *)values, length, to);
}

/* Rows to columns: `count` rows of a length, to places from `first` on of columns that are `width` apart. */
static void turn_rows(const int64_t *restrict rows, size_t count, size_t length, size_t width,
                      int64_t *restrict first) {
    for (size_t i = 0; i < length; i++)
        for (size_t k = 0; k < count; k++) first[i * width + k] = rows[k * length + i];
}

/* A table's costs, run by run: of more rows than columns each row is one, and goes to a column, some rows at a time,
 * which fill a line of the cache in each column. 0, or a status. */
static int write_runs(job *w, double rounder, uint64_t *tails) {
    if (!w->by_columns) {
        for (size_t run = 0, length = run_length(w); run < runs_of(w); run++)
            *tails |= write_run(w, run, length, rounder, w->costs + run * length);
        return 0;
    }
    size_t rows = w->q.rows, length = w->q.columns;
    int64_t *block = block_of(&w->shop->level, LINE * length * 8);
    if (!block) return SIGDORF_MEMORY;
    for (size_t row = 0; row < rows; row += LINE) {
        size_t count = rows - row < LINE ? rows - row : LINE;
        for (size_t k = 0; k < count; k++) *tails |= write_run(w, row + k, length, rounder, block + k * length);
        turn_rows(block, count, length, w->width, w->costs + row);
    }
    return 0;
}

/* How many costs are written. */
static size_t written(const job *w) { return w->arcs ? w->entries : w->q.count + w->outlets; }

/* By how many places all whole costs can be shifted to the right, so that nothing is lost: they are. The smaller the
 * numbers, the fewer the bids. */
static void drop_twos(job *w) {
    uint64_t bits = 0;
    size_t count = written(w);
    /* A gap has the highest bit alone. */
    for (size_t e = 0; e < count; e++) bits |= (uint64_t)whole_at(w, e) & (uint64_t)INT64_MAX;
    w->spare = bits ? __builtin_ctzll(bits) : 0;
    w->unit -= w->spare;
    for (size_t e = 0; w->spare && e < count; e++) {
        int64_t *cost = w->arcs ? &w->arcs[e].cost : &w->costs[e];
        if (*cost != NO_ENTRY) *cost >>= w->spare;
    }
}

int write_costs(job *w) {
    int is_float = w->q.type == 'd', status = 0;
    w->unit = w->spare = 0, w->least = 0;
    if (!w->is_small && is_float) take_unit(w);
    if (!w->is_small && !is_float) take_whole_unit(w);
    int shift = w->is_small ? 0 : shift_of(w->unit);
    w->scale = by_power(1, shift), w->grow = by_power(1, -shift), w->back = by_power(1, shift - w->unit);
    double rounder = rounder_of(w->unit);
    uint64_t tails = 0;
    /* Small ones too, in whole units from 0. What ran under as it was read would be no tail there. */
    if (w->arcs || (is_float && (shift < 0 || (w->has_gaps && !w->outlets))))
        tails = write_each(w, rounder);
    else if (w->costs != w->q.costs)
        status = write_runs(w, rounder, &tails);
    if (status) return status;
    for (size_t i = 0; !w->arcs && i < w->outlets; i++)
        w->costs[w->q.count + i] = whole_of(w, NO_PLACE, rounder, &tails);
    w->has_tails = tails != 0 && !w->is_small;
    if (!w->is_small && !w->has_tails && !w->gate_cost) drop_twos(w);
    return 0;
}
