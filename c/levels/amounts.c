/* What an answer has beside its pairs: the sum of their costs, and prices, exactly. */
#include <limits.h>
#include <math.h>
#include <stdlib.h>
#include <string.h>

#include "levels.h"

void make_whole(int64_t *prices, size_t objects, const uint32_t *picked, size_t persons, uint8_t *seen) {
    int64_t scale = (int64_t)persons + 1, least = 0;
    memset(seen, 0, (size_t)scale);
    for (size_t i = 0; i < persons; i++) seen[prices[picked[i]] % scale] = 1;
    while (seen[least]) least++;
    int64_t more = least ? scale - least : 0;
    for (size_t j = 0; j < objects; j++) prices[j] = (prices[j] + more) / scale;
}

/* A float as a whole number, which is odd or 0, of a power of two. */
static int64_t digits_of(double value, int *exponent) {
    uint64_t bits;
    memcpy(&bits, &value, sizeof bits);
    int high = (int)(bits >> 52 & 0x7ff);
    uint64_t digits = (bits & ((UINT64_C(1) << 52) - 1)) | (uint64_t)(high > 0) << 52;
    if (!digits) return *exponent = 0;
    int twos = __builtin_ctzll(digits);
    *exponent = (high > 0 ? high : 1) - 1075 + twos;
    return (int64_t)(digits >> twos) * (bits >> 63 ? -1 : 1);
}

/* The sum of some floats, exactly, where it is within 128 bits. */
static void sum_up_all(job *w, const double *costs, size_t count) {
    int least = INT_MAX, most = INT_MIN, exponent, above;
    for (size_t i = 0; i < count; i++) {
        if (!digits_of(costs[i], &exponent)) continue;
        frexp(costs[i], &above);
        if (exponent < least) least = exponent;
        if (above > most) most = above;
    }
    if (least > most) least = most = 0;
    /* All together are less than 2^126 of the least unit. */
    if (most - least > 126 - bits_in(count)) return;
    w->sum = 0;
    for (size_t i = 0; i < count; i++) {
        int64_t digits = digits_of(costs[i], &exponent);
        if (digits) w->sum += (__int128)digits * ((__int128)1 << (exponent - least));
    }
    w->sum_unit = -least;
    for (; w->sum_unit > 0 && !(w->sum & 1); w->sum_unit--) w->sum >>= 1;
    w->has_sum = 1;
}

/* The sum of the choice's costs. */
int sum_up(job *w) {
    w->has_sum = w->is_small || w->q.type != 'd';
    if (w->is_small)
        for (size_t i = 0; i < w->persons; i++) w->sum += whole_at(w, w->choice[i]);
    if (w->is_small) return 0;
    double *costs = block_of(&w->shop->level, w->persons * 8);
    if (!costs) return SIGDORF_MEMORY;
    for (size_t i = 0; i < w->persons; i++) {
        uint32_t place = place_of(w, i, w->choice[i]);
        if (w->q.type == 'd')
            costs[i] = float_at(w, place);
        else
            w->sum += w->sign * (w->q.type == 'q' ? (__int128)((const int64_t *)w->q.costs)[place]
                                                  : (__int128)((const uint64_t *)w->q.costs)[place]);
    }
    if (w->q.type == 'd') sum_up_all(w, costs, w->persons);
    return 0;
}

/* Whether a choice is a gate. */
static int uses_gate(const job *w) {
    for (size_t i = 0; w->gate_cost && i < w->persons; i++)
        if (whole_at(w, w->choice[i]) == w->gate_cost) return 1;
    return 0;
}

static int by_size(const void *one, const void *other) {
    __int128 difference = *(const __int128 *)one - *(const __int128 *)other;
    return (difference > 0) - (difference < 0);
}

/* A number to add to prices from 0, below `step`, so that no price of a choice is less than `span` above a multiple of
 * `step`, which is more than `span` times the choices. -1 where there is no memory. */
static __int128 offset_of(const job *w, const __int128 *prices, __int128 step, __int128 span) {
    size_t persons = w->persons;
    __int128 *from = malloc(persons * sizeof *from), offset = -1;
    if (!from) return -1;
    /* Each choice forbids `span` numbers from here. */
    for (size_t i = 0; i < persons; i++) from[i] = (step - prices[object_of(w, i, w->choice[i])] % step) % step;
    qsort(from, persons, sizeof *from, by_size);
    for (size_t i = 0; offset < 0 && i < persons; i++)
        if ((i + 1 < persons ? from[i + 1] : from[0] + step) - from[i] > span) offset = (from[i] + span) % step;
    free(from);
    return offset;
}

/* Takes prices from 0, in a unit, to those of the matrix with its gate as it is: docs/notes/exact.md says why. STRANGE
 * where they are beyond 128 bits, or a status. */
static int lift(const job *w, __int128 *prices, int unit) {
    size_t objects = w->objects;
    __int128 step = (__int128)w->gate_cost << (unit - w->unit), span = (__int128)w->gate_span << (unit - w->unit),
             most = 0;
    double gate = ldexp(w->gate, unit);
    for (size_t j = 0; j < objects; j++) most = prices[j] > most ? prices[j] : most;
    double times = (double)(most / step + 2) * (double)(w->persons + 1);
    if (!(fabs(gate) * times < ldexp(1, 120)) || (double)most * times > ldexp(1, 120)) return STRANGE;
    if (fabs(gate) < 0x1p62 && (double)(int64_t)gate != gate) return STRANGE;
    __int128 more = (__int128)gate - step - (__int128)w->least * ((__int128)1 << (unit - w->unit)),
             offset = offset_of(w, prices, step, span);
    for (size_t j = 0; j < objects; j++) prices[j] += more * ((prices[j] + offset) / step);
    return offset < 0 ? SIGDORF_MEMORY : 0;
}

/* Prices of all levels together, as the answer has them, where they are within 128 bits: else Python puts them
 * together. A status where there is no memory, or STRANGE where the problem has to be solved for levels. */
int combine(job *w) {
    size_t objects = w->objects, persons = w->persons;
    if (w->q.wants_levels) return 0;
    w->are_narrow = w->is_small;
    for (size_t j = 0; w->is_small && w->are_whole && j < objects; j++) w->prices[j] *= (int64_t)persons + 1;
    if (w->is_small) return 0;
    int last = w->levels ? w->units[w->levels - 1] : w->unit, lifts = uses_gate(w);
    if (last < 0) last = 0;
    /* Prices of the library are to 2^61, and those of a round to 2^60 in a unit finer by 28 less the bits of the
     * persons: times persons + 1, and in the last unit, all are below 2^122. */
    int more = bits_in(persons) - 14, is_wide = last - w->unit > 60 - (more > 0 ? 2 * more : 0);
    if (is_wide && !w->are_whole) return STRANGE;
    if (is_wide) return lifts ? STRANGE : 0;
    __int128 *combined = block_of(&w->shop->round, objects * sizeof *combined), least = 0;
    if (!combined) return SIGDORF_MEMORY;
    for (size_t j = 0; j < objects; j++) {
        combined[j] = (__int128)w->prices[j] << (last - w->unit);
        for (size_t k = 0; k < w->levels; k++)
            combined[j] += (__int128)w->changes[k * objects + j] * ((__int128)1 << (last - w->units[k]));
        if (persons == objects && (j == 0 || combined[j] < least)) least = combined[j];
    }
    for (size_t j = 0; j < objects; j++) combined[j] -= least;
    int status = lifts ? lift(w, combined, last) : 0;
    if (status) return status;
    int are_narrow = 1;
    for (size_t j = 0; j < objects; j++) {
        if (w->are_whole) combined[j] *= (__int128)persons + 1;
        are_narrow &= combined[j] >= INT64_MIN && combined[j] <= INT64_MAX;
    }
    w->are_narrow = are_narrow;
    if (are_narrow) {
        for (size_t j = 0; j < objects; j++) w->prices[j] = (int64_t)combined[j];
    } else {
        if (!(w->combined = malloc(objects * sizeof *combined))) return SIGDORF_MEMORY;
        memcpy(w->combined, combined, objects * sizeof *combined);
    }
    w->unit = last;
    return 0;
}

/* ---- Any sum of doubles */

enum { LIMBS = sizeof((wide_sum *)0)->limbs / sizeof(int64_t) };

/* A limb takes 2^31 of these before it runs over. */
void add_to(wide_sum *sum, double value) {
    int exponent;
    int64_t digits = digits_of(value, &exponent);
    if (!digits) return;
    unsigned __int128 bits = (unsigned __int128)(digits < 0 ? -digits : digits) << ((exponent + 1074) % 32);
    for (size_t k = (size_t)(exponent + 1074) / 32; bits; k++, bits >>= 32)
        sum->limbs[k] += digits < 0 ? -(int64_t)(uint32_t)bits : (int64_t)(uint32_t)bits;
}

/* Makes all limbs but the last one numbers from 0 to 2^32 - 1; answers whether the sum is below 0. */
static int carry(wide_sum *sum) {
    for (size_t k = 0; k + 1 < LIMBS; k++) {
        sum->limbs[k + 1] += sum->limbs[k] >> 32;
        sum->limbs[k] &= UINT32_MAX;
    }
    return sum->limbs[LIMBS - 1] < 0;
}

double nearest_to(const wide_sum *given) {
    wide_sum sum = *given;
    int is_below = carry(&sum);
    if (is_below) {
        for (size_t k = 0; k < LIMBS; k++) sum.limbs[k] = -sum.limbs[k];
        carry(&sum);
    }
    size_t top = LIMBS - 1;
    while (top > 2 && !sum.limbs[top]) top--;
    /* The three highest limbs have all of a double's bits, and what is below them only says whether a half is one. */
    unsigned __int128 digits = ((unsigned __int128)sum.limbs[top] << 32 | (uint64_t)sum.limbs[top - 1]) << 32;
    digits |= (uint64_t)sum.limbs[top - 2];
    for (size_t k = 0; k + 2 < top; k++) digits |= sum.limbs[k] != 0;
    int exponent = 32 * ((int)top - 2) - 1074, high = digits >> 64 ? 64 : 0;
    uint64_t part = (uint64_t)(digits >> high);
    int length = part ? high + bits_in(part) : 0, more = length > 53 ? length - 53 : 0;
    uint64_t whole = (uint64_t)(digits >> more);
    unsigned __int128 rest = digits - ((unsigned __int128)whole << more),
                      half = more ? (unsigned __int128)1 << (more - 1) : 1;
    whole += rest > half || (rest == half && whole & 1);
    return ldexp(is_below ? -(double)whole : (double)whole, exponent + more);
}
