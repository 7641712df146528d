/* A problem at work: what the parts of this folder share. run.c runs it, reading.c reads costs, entries.c puts entries
 * in order, refine.c makes an answer of the costs as they are, ties.c the first one of several, and amounts.c adds up.
 * watching.c asks a watch between searches.
 *
 * The library has it for its calls of doubles (floats.c) and for Python (python.c), whose extension is compiled of the
 * same files. It is plain C, and only tested. Proved are the library's calls of whole numbers, by which it solves. */
#ifndef SIGDORF_LEVELS_H
#define SIGDORF_LEVELS_H

#include <stddef.h>
#include <stdint.h>

#include "sigdorf.h"

#define NO_ENTRY INT64_MIN
/* The place of a way out, which is none of the caller's entries. */
#define NO_PLACE UINT32_MAX
/* What a part returns in place of a status, where costs were written meanwhile, a number isn't taken here, or what is
 * bound in the library's place answers what the library wouldn't. */
#define STRANGE 1

typedef int32_t arcs_call(uint32_t, uint32_t, const sigdorf_arc *, size_t, const int64_t *, size_t, uint64_t,
                          sigdorf_watch *, uint32_t *, size_t, int64_t *, size_t, uint32_t *, size_t, sigdorf_found *);
typedef int32_t dense_call(uint32_t, uint32_t, const int64_t *, size_t, size_t, int64_t, const int64_t *, size_t,
                           uint64_t, sigdorf_watch *, uint32_t *, size_t, int64_t *, size_t, uint32_t *, size_t,
                           sigdorf_found *);

/* The proved calls: sigdorf_solve_watched and sigdorf_solve_dense_watched. */
typedef struct {
    arcs_call *solve;
    dense_call *solve_dense;
} library;

/* What is asked: a table, row by row, or entries in any order. Costs are doubles, or whole numbers of 64 bits. The rows
 * of a table are `stride` apart; where that isn't the number of columns, costs are doubles. */
typedef struct {
    const void *costs;
    const int64_t *row, *column; /* of each entry, or NULL of a table */
    const int64_t *start;        /* a price of each object, of whole costs as the library has it, or NULL */
    const double *start_amounts; /* or in its place in the unit of the costs */
    size_t count, rows, columns, stride, starts;
    size_t most_entries; /* so many entries at most are taken */
    uint64_t bids, whole_limit;
    double limit; /* what pairs may cost at most, and a way out costs each person; of whole numbers `whole_limit` */
    char type;    /* d, q or Q, as Python's struct module has it */
    int has_limit, wants_prices, takes_gap; /* whether an answer may have a gap */
    int wants_levels; /* prices as levels, that Python puts together: they may be of any length then */
    int is_kept; /* a table that nobody writes while the call runs */
    /* What ends all searches together, or NULL. Its `progress` gets a `scale` before the records of a search. */
    sigdorf_watch *watch;
} question;

/* A block of memory that is used again. */
typedef struct {
    void *block;
    size_t bytes;
} room;

/* What the problems of a call use one after another: room for costs, for a level, and for a round, and a level's arcs,
 * of which so many have room. */
typedef struct {
    room costs, level, round;
    uint32_t *object, *entry;
    int64_t *slack;
    double *tail;
    size_t arcs, slacks; /* for so many objects, and for so many of the others, there is room */
} workshop;

/* A problem at work. The smaller side are the persons: of more rows than columns the columns. Costs are whole numbers
 * of 2^-unit, turned so that the least is wanted; but for small ones they are counted from the least of them, and
 * `tail_of` has what is left of each. An entry is known by a number: of a table person * width + object, and with a
 * limit behind all these the persons' ways out; of a list by rising persons. */
typedef struct {
    question q;
    const library *calls;
    workshop *shop;
    size_t persons, objects, outlets; /* of the objects so many are ways out, the last ones */
    size_t width;                     /* the objects without these */
    size_t entries;                   /* how many costs are no gaps, ways out included */
    int sign, by_columns;
    int64_t *costs;          /* of a table (a kept one may be the caller's), and of its ways out; a gap costs what a way out
                              * does, if there are some */
    sigdorf_arc *arcs;       /* of a list; else NULL */
    uint32_t *first, *place; /* of each person the first arc, and one more; of each arc the caller's entry */
    room answer;             /* what the answer is made of; another job may have had it */
    int64_t *prices, *rows, *columns, *places, *free_rows, *free_columns;
    uint32_t *choice, *hall; /* the choice of each person: the number of an entry */
    size_t pairs;
    double floor, ceiling;    /* the least and the greatest cost */
    double scale, grow, back; /* the power of two by which costs are read, so that none runs over or under; what undoes
                                 it; and a unit as it is read */
    uint64_t least_key, most_key;
    int64_t least;
    int spare; /* by so many places costs were shifted, where all end in as many zeros */
    /* A cost that is far greater than all others, and what is in its place, or 0; others differ by less than so many
     * units. */
    double gate, inner; /* and the greatest of these */
    int64_t gate_cost, gate_span;
    int unit, has_gaps, has_tails, is_small; /* small: whole numbers to 10^9 */
    /* The cost may be above the least by so many 2^-gap_unit: 0, unless a limit ended the search. */
    int64_t gap;
    int gap_unit;
    uint32_t kind, fault;                /* of what was refused, or stopped: sigdorf_found's `kind` and `place` */
    uint32_t hall_persons, hall_objects; /* of what has no assignment */
    /* The sum of the choice's costs, turned: a whole number of 2^-sum_unit, where it is within 128 bits, and else
     * `has_sum` is 0. */
    __int128 sum;
    int sum_unit, has_sum;
    /* Where prices are wanted and costs have tails: for each level but the first a change of each object's price, and
     * its unit. */
    int64_t *changes;
    int *units;
    size_t levels;
    int are_whole; /* prices are in whole units of the costs, and not in parts of one */
    /* The answer's prices: where they are narrow `prices`, else `combined`, in units of which (persons + 1) * 2^unit
     * are one of the caller's. Where there are neither, Python puts the levels together, of which `prices` are the
     * first one's, in whole units of the costs. */
    __int128 *combined;
    int are_narrow;
} job;

/* How many bits a number above 0 has. */
static inline int bits_in(size_t number) { return 64 - __builtin_clzll(number); }
/* The usual bids of a phase are few for millions of persons, each of whom may bid in it: 1,000 each at least. */
static inline uint64_t bids_for(uint64_t bids, size_t persons) {
    uint64_t each = 1000 * (uint64_t)persons;
    return bids == SIGDORF_USUAL_BIDS && each > bids ? each : bids;
}
/* The whole number next to a value of 2^51 at most; of two the even one. */
static inline double nearest(double value) { return value + 0x1.8p52 - 0x1.8p52; }

/* A number times a power of two, rounded once, as ldexp has it: by a multiplication, since a small table has dozens. */
static inline double by_power(double value, int exponent) {
    if (exponent < -1022 || exponent > 1023) return __builtin_ldexp(value, exponent);
    uint64_t bits = (uint64_t)(exponent + 1023) << 52;
    double power;
    __builtin_memcpy(&power, &bits, sizeof power);
    return value * power;
}

/* The block of a room, with so many bytes at least and what it has held lost; NULL where there is no memory. */
void *block_of(room *r, size_t bytes);
/* A part of a block, of so many values of a size. */
static inline void *cut(char **at, size_t count, size_t size) {
    char *part = *at;
    *at += (count * size + 7) / 8 * 8;
    return part;
}

/* ---- Entries and places */

static inline int64_t whole_at(const job *w, size_t entry) { return w->arcs ? w->arcs[entry].cost : w->costs[entry]; }
/* The object of a person's entry, and the other way round, of a table. */
static inline size_t object_of(const job *w, size_t person, size_t entry) {
    if (w->arcs) return w->arcs[entry].object;
    return entry < w->q.count ? entry - person * w->width : w->width + person;
}
static inline size_t entry_for(const job *w, size_t person, size_t object) {
    return object < w->width ? person * w->width + object : w->q.count + person;
}
/* The caller's place of an entry: of a table by its rows, as if they were not apart. */
static inline uint32_t place_of(const job *w, size_t person, size_t entry) {
    if (w->arcs) return w->place[entry];
    if (entry >= w->q.count) return NO_PLACE;
    return (uint32_t)(w->by_columns ? object_of(w, person, entry) * w->persons + person : entry);
}

/* ---- The caller's costs */

/* Costs of a list, or of rows that aren't apart, are one run; else each row is one. */
static inline int is_one_run(const job *w) { return w->q.stride == w->q.columns; }
static inline size_t runs_of(const job *w) { return is_one_run(w) ? 1 : w->q.rows; }
static inline size_t run_length(const job *w) { return is_one_run(w) ? w->q.count : w->q.columns; }
static inline const double *run_at(const job *w, size_t run) { return (const double *)w->q.costs + run * w->q.stride; }

/* A double of the caller's, turned. */
static inline double float_at(const job *w, uint32_t place) {
    if (place == NO_PLACE) return w->sign * w->q.limit;
    size_t offset = is_one_run(w) ? place : place / w->q.columns * w->q.stride + place % w->q.columns;
    return w->sign * ((const double *)w->q.costs)[offset];
}
/* The bits in which a whole number of the caller's differs from its key: one of the numbers from 0 to 2^64 - 1, which
 * have the same order, turned. */
static inline uint64_t turned_bits(const job *w) {
    return (w->q.type == 'q' ? UINT64_C(1) << 63 : 0) ^ (w->sign < 0 ? UINT64_MAX : 0);
}
static inline uint64_t key_at(const job *w, uint32_t place) {
    return (place == NO_PLACE ? w->q.whole_limit : ((const uint64_t *)w->q.costs)[place]) ^ turned_bits(w);
}
/* The greatest double, turned, that is no gap: a greater one costs more than the limit, or is infinite. */
static inline double most_of(const job *w) { return w->q.has_limit ? w->sign * w->q.limit : 0x1.fffffffffffffp1023; }
static inline int is_gap(const job *w, uint32_t place) {
    if (w->q.type != 'd') return w->q.has_limit && key_at(w, place) > key_at(w, NO_PLACE);
    return float_at(w, place) > most_of(w);
}

/* Of reading.c: each 0, or a status where there is a number that isn't taken. */
int look_over(job *w);
int write_costs(job *w);
/* What rounding to whole units has left of an entry's cost: 1 where that is more than half a unit, since somebody has
 * written the costs meanwhile. */
static inline int tail_of(const job *w, size_t person, size_t entry, double *tail) {
    uint32_t place = place_of(w, person, entry);
    int64_t whole = whole_at(w, entry);
    *tail = 0;
    if (w->q.type != 'd') {
        *tail = (double)(int64_t)(key_at(w, place) - w->least_key - ((uint64_t)whole << -w->unit));
        return !(__builtin_fabs(*tail) <= w->back / 2);
    }
    double value = float_at(w, place);
    if (w->gate_cost && whole == w->gate_cost) return value != w->gate;
    int64_t units = whole * (INT64_C(1) << w->spare) + w->least;
    /* A cost that is less than half a unit is its own tail: as it is read it may have run under. */
    double left = value * w->scale - (double)units * w->back;
    *tail = units ? left * w->grow : value;
    return !(__builtin_fabs(left) <= w->back / 2);
}

/* Of entries.c: 0, or a status where there is no memory, or an entry lies outside. */
int list_entries(job *w);
void write_pairs(job *w);

/* ---- Levels */

/* A level: arcs by rising persons, of each where they begin and the place of his choice among them. `entry` has the
 * numbers of their entries, or is NULL where w has a table; then objects rise. Of a table of whole costs there are no
 * slacks and tails: each arc is as good as the choice. */
typedef struct {
    size_t persons, objects;
    int unit, is_settled;
    uint32_t *first, *object, *entry, *pick;
    int64_t *slack, *price;
    double *tail;
} level;
/* The first of a person's arcs whose object isn't below this one, where objects rise. */
static inline size_t arc_from(const level *l, size_t person, uint32_t object) {
    size_t low = l->first[person], high = l->first[person + 1];
    while (low < high) {
        size_t middle = (low + high) / 2;
        if (l->object[middle] < object)
            low = middle + 1;
        else
            high = middle;
    }
    return low;
}
static inline size_t entry_of(const job *w, const level *l, size_t person, size_t e) {
    return l->entry ? l->entry[e] : entry_for(w, person, l->object[e]);
}

/* Of refine.c: 0, or a status. */
int refine(job *w);

/* Of ties.c: 0, or SIGDORF_MEMORY. Takes the first of all assignments by arcs that no person has a better one than. */
int take_first(level *l);

/* Of amounts.c: the first two 0, or a status; STRANGE where the problem has to be solved for levels. */
int combine(job *w);
int sum_up(job *w);
/* Prices in whole units at which no arc is better than a person's choice, of the library's, at which none is more than
 * 1 better: whole.py says why. */
void make_whole(int64_t *prices, size_t objects, const uint32_t *picked, size_t persons, uint8_t *seen);

/* A sum of doubles, exactly: limb k counts 2^(32 k - 1074). */
typedef struct {
    int64_t limbs[68];
} wide_sum;
void add_to(wide_sum *sum, double value);
/* The double next to it: of two the even one, and an infinite one where it is beyond all of them. */
double nearest_to(const wide_sum *sum);

/* ---- Of watching.c */

/* What the records that follow count, for who reads them: of costs c that a search adds up to a sum, with a cost of the
 * caller's for each person that whole costs are counted from. It stands in the place of a record of the library's. */
typedef struct {
    int64_t least;     /* of doubles so many 2^-(unit + spare), turned; else the bits of one of the caller's numbers */
    int32_t unit, spare;
    double gate;       /* turned; in its place a search has `gate_cost`, or has none where that is 0 */
    int64_t gate_cost;
    uint32_t flags;    /* of these: */
    uint32_t known;    /* SCALE, where a record has 0 or 1 */
} scale;
enum { SCALE = 2, HAS_TAILS = 1, IS_SMALL = 2, IS_WHOLE = 4, IS_UNSIGNED = 8 };

/* A watch for one search of a job; one without limits and descriptors where the job has none. Only a search by all
 * costs tells of progress: the rounds after it change less than a unit for each person. */
sigdorf_watch watch_of(const job *w, int tells);
/* Takes what a search has written to its watch. */
void take_watch(job *w, const sigdorf_watch *own);
/* Whether the watch has ended a search, or would end the next one. */
int is_over(job *w);

/* ---- Of run.c */

/* Begins a job of a question, by the smaller side: 0 where its sizes are taken. */
int begin_job(job *w, workshop *shop, const library *calls, int maximize);
/* Solves it: SIGDORF_OPTIMAL, or SIGDORF_BRACKET with a gap, where `choice` has the entries; SIGDORF_INFEASIBLE, where
 * `choice` and `hall` have so many persons and objects; SIGDORF_REFUSED with `kind` and `fault`; another status; or
 * STRANGE. */
int run(job *w);
/* From the one to the other, with what the first answers, doubles are rounded to nearest, and small ones are kept,
 * whatever the thread is set to: which is as before then, its flags too. */
unsigned begin_floats(void);
void end_floats(unsigned kept);
/* Gives back what they hold. */
void end_job(job *w);
void close_shop(workshop *shop);

#endif
