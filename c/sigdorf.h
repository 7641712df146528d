/* Sigdorf as a C library: least-cost assignments of sparse problems and of tables, and their checks. docs/C.md shows its use.
 *
 * What is proved holds of a call that keeps the duties below, and of no other. Nothing on this side of the border is seen by the
 * prover: this file is written by hand, and `c/test` tries its numbers against the library.
 *
 * PROVED: the seven calls of whole numbers, but for what the two watched ones make of their watch, and that in each a null pointer
 * of length 0 becomes one that is not null. TESTED ONLY: the six calls of doubles, which are sigdorf_solve_dense_f64, sigdorf_match,
 * sigdorf_match_many, and these with _watched. They are plain C around the proved calls: each search in whole numbers is proved, and
 * how doubles become whole numbers is not.
 *
 * DUTIES of the caller, for each call:
 *   1  Each pointer is aligned as its type, and leads to as many whole values as the length after it says. It may be null where that
 *      is 0, and nowhere else. No length is above 2^63 / (size of a value).
 *   2  What a const pointer leads to is initialised, and no thread writes it while the call runs.
 *   3  What a pointer without const leads to is initialised, and is read and written by nobody else while the call runs: it shares no
 *      byte with any other argument.
 *   4  malloc, realloc and free are those of one allocator, and align as the C standard says.
 *   5  No call from a signal handler. In the child of a fork of a process with threads only where malloc may be called there: POSIX
 *      doesn't promise that, and glibc keeps it. A fork while another thread is within a call is as good, since no call holds a lock.
 *   6  The descriptors of a sigdorf_watch stay open while the call runs. A write to a pipe whose reading end is closed raises SIGPIPE,
 *      which ends the process, unless the signal is ignored.
 * Sizes and ranges are no duty: they are tested. Several threads may call at a time, each with memory of its own for what is written. No
 * call keeps a pointer, waits, prints, or ends the process; all memory that a call takes is given back before it returns.
 */
#ifndef SIGDORF_H
#define SIGDORF_H

#include <stddef.h>
#include <stdint.h>

#ifdef __cplusplus
extern "C" {
#endif

/* Of this header; `c/link` gives the shared object's name the first number. */
#define SIGDORF_VERSION "1.1"
#define SIGDORF_VERSION_MAJOR 1
#define SIGDORF_VERSION_MINOR 1

#define SIGDORF_MOST_PERSONS 4194304u
#define SIGDORF_MOST_OBJECTS 4194304u
#define SIGDORF_MOST_ARCS 268435456u
#define SIGDORF_MOST_COST 1000000000
/* The highest price that a start may have, on the scale of costs times persons + 1. */
#define SIGDORF_HIGHEST_START (INT64_C(1) << 60)
#define SIGDORF_USUAL_BIDS UINT64_C(100000000)

/* This person may take this object at this cost; both are numbered from 0. 16 bytes. */
typedef struct sigdorf_arc {
    int64_t cost;
    uint32_t person;
    uint32_t object;
} sigdorf_arc;

/* What a call returns beside its status. A field that the status does not name keeps its value. 64 bytes. */
typedef struct sigdorf_found {
    int64_t cost;     /* SIGDORF_OPTIMAL, SIGDORF_BRACKET */
    int64_t lower;    /* SIGDORF_BRACKET */
    uint32_t persons; /* SIGDORF_INFEASIBLE */
    uint32_t objects; /* SIGDORF_INFEASIBLE */
    uint32_t kind;    /* SIGDORF_REFUSED: a sigdorf_list_fault; SIGDORF_START: a sigdorf_start_fault; SIGDORF_INVALID: a
                         sigdorf_claim_fault; SIGDORF_BRACKET: a sigdorf_limit */
    uint32_t place;   /* of these but SIGDORF_BRACKET: the arc, entry, person or object that is at fault, or 0 */
    uint64_t reserved[4]; /* for later versions: none so far reads or writes it */
} sigdorf_found;

/* The same of the calls of doubles. 64 bytes. */
typedef struct sigdorf_found_f64 {
    double cost;      /* SIGDORF_OPTIMAL, SIGDORF_BRACKET: the double next to the sum; infinite where it is beyond all */
    double gap;       /* SIGDORF_BRACKET: the sum is above the least one by no more than this */
    uint32_t persons; /* SIGDORF_INFEASIBLE; of a match with a cost also: so many persons have an object */
    uint32_t objects; /* SIGDORF_INFEASIBLE */
    uint32_t kind;    /* SIGDORF_REFUSED: a sigdorf_list_fault; SIGDORF_BRACKET: a sigdorf_limit */
    uint32_t place;   /* SIGDORF_REFUSED: the entry that is at fault, or 0 */
    uint64_t reserved[4]; /* for later versions: none so far reads or writes it */
} sigdorf_found_f64;

/* What ends a search before its own end, and to whom it says how far it is. It is asked before each phase, and each time that some
 * 4 million arcs or entries were looked at, which takes some milliseconds; and where the search over a table ends. 24 bytes. */
typedef struct sigdorf_watch {
    int64_t until;    /* when the search ends, in nanoseconds of CLOCK_MONOTONIC, as sigdorf_until has it; 0: never */
    int32_t stop;     /* a descriptor that ends the search as soon as there is something to read, of which up to 8 bytes are read; -1:
                         none. It is set not to block (O_NONBLOCK) */
    int32_t progress; /* a descriptor to which each time a sigdorf_progress is written, by one write; -1: none. It should not block
                         (O_NONBLOCK): what it doesn't take is lost */
    uint32_t stopped; /* written: 1 where the watch has ended the search, else 0 */
    uint32_t asked;   /* written: how often the search has looked at clock and descriptors */
} sigdorf_watch;

/* How far a search is. 40 bytes. */
typedef struct sigdorf_progress {
    int64_t cost;      /* of the best assignment so far; 0 where `known` is 0 */
    int64_t lower;     /* no assignment costs less (not proved while the search runs); 0 where `known` is 0 */
    int64_t eps;       /* of the phase, on the scale of costs times persons + 1 */
    uint64_t bids;     /* of the phase */
    uint32_t assigned; /* persons with an object now */
    uint32_t known;    /* 1 where `cost` and `lower` are there */
} sigdorf_progress;

/* The object of a person who stays free, in an answer of a match. */
#define SIGDORF_FREE UINT32_MAX

/* One of the tables of sigdorf_match_many: sigdorf_match's arguments of these names. 40 bytes. */
typedef struct sigdorf_table_f64 {
    uint32_t persons;
    uint32_t objects;
    const double *costs;
    size_t costs_len;
    size_t stride;
    double gate;
} sigdorf_table_f64;

enum sigdorf_status {
    SIGDORF_OPTIMAL = 0,    /* of a check: the claim holds */
    SIGDORF_SIZES = 2,      /* a length is not the number of persons, or of objects; or the table does not lie within its length */
    SIGDORF_INFEASIBLE = 3, /* there is no assignment */
    SIGDORF_INVALID = 3,    /* of a check: the claim does not pass */
    SIGDORF_BRACKET = 4,    /* a limit ended the search: an assignment, and a bound */
    SIGDORF_REFUSED = 5,    /* the arcs are no problem */
    SIGDORF_MEMORY = 6,     /* malloc or realloc gave NULL; nothing was written */
    SIGDORF_START = 7,      /* no run can start from the prices */
    SIGDORF_SOME = 8,       /* of sigdorf_match_many: some table's status is another than SIGDORF_OPTIMAL */
    SIGDORF_UNREACHED = 9   /* of a table of sigdorf_match_many_watched: the watch had ended the call before it; nothing was written */
};

/* The first fault of a list, looked for in this order; the last four arc by arc. Of a table the first three and the last. */
enum sigdorf_list_fault {
    SIGDORF_PERSONS = 1,   /* persons is not from 1 to 4,194,304 */
    SIGDORF_OBJECTS,       /* objects is not 0, and below persons or above 4,194,304 */
    SIGDORF_TOO_MANY_ARCS, /* 268,435,456 arcs are right, and one more comes after them */
    SIGDORF_PERSON,        /* the person of arc `place` is none of the problem */
    SIGDORF_OBJECT,        /* the object of arc `place` is none of the problem */
    SIGDORF_COST,          /* the cost of arc `place`, or of the entry at this place, is beyond 10^9 in magnitude; of
                              doubles: it is NaN or -infinity */
    SIGDORF_GATE           /* of a match, after the first two: the gate is NaN or infinite */
};

enum sigdorf_start_fault {
    SIGDORF_NOT_SQUARE = 1, /* there are more objects than persons: of sigdorf_solve_by_messages alone */
    SIGDORF_OTHER_SIZE,     /* the prices are not as many as the objects */
    SIGDORF_PRICE           /* the price of object `place` is not from 0 to 2^60 */
};

enum sigdorf_claim_fault {
    SIGDORF_MISPLACED = 1, /* at the place of person `place` is no arc of that person */
    SIGDORF_UNSPELLED,     /* a number is out of range, or a Hall set's numbers do not rise */
    SIGDORF_TWICE,         /* object `place` is taken twice */
    SIGDORF_WRONG_COST,    /* the cost is not the sum */
    SIGDORF_SLACK,         /* person `place` has a better arc at the prices */
    SIGDORF_LEFT_OVER,     /* nobody takes object `place`, and it has a price */
    SIGDORF_NOT_HALL       /* the persons have arcs to no fewer objects than they are */
};

/* What ended a phase; of sigdorf_solve one of the first two. */
enum sigdorf_limit { SIGDORF_BIDS = 1, SIGDORF_CEILING, SIGDORF_POSTS, SIGDORF_TRAIL, SIGDORF_MAIL };

/* Solves the problem of `persons` persons, `objects` objects (0 means as many as persons) and these arcs. `start` has no price at
 * all, or for each object one to start from, as an earlier call has left them in `prices`. `bids` is the most bids of a phase. `choice` and
 * `hall_objects` have a place for each person, `prices` for each object.
 *
 * SIGDORF_OPTIMAL: choice[i] is the place in `arcs` of an arc of person i; no two lead to one object; found->cost is the sum of their
 *   costs; and NO ASSIGNMENT OF THE PROBLEM COSTS LESS. prices[j] is a price of object j from 0 to 2^61, on the scale of costs times
 *   persons + 1. sigdorf_check lets all of it pass, unless memory is refused.
 * SIGDORF_BRACKET: the same, but that no assignment costs less than found->lower. It is left only where a phase has made `bids` bids, or
 *   prices have come to 2^61: without a start only where persons * ((persons + 1) * (greatest cost - least) + 1) is that much.
 * SIGDORF_INFEASIBLE: all arcs of the first found->persons persons in `choice` lead to the first found->objects objects in
 *   `hall_objects`, which are fewer; so there is no assignment. Both rise. sigdorf_check_hall lets them pass, unless memory is refused.
 * SIGDORF_REFUSED: found->kind and found->place are exactly the first fault of the list.
 * SIGDORF_MEMORY may come in place of every other status but SIGDORF_SIZES. What a status does not name keeps its values.
 *
 * Of several least assignments one is written, and which may change from version to version. */
int32_t sigdorf_solve(uint32_t persons, uint32_t objects, const sigdorf_arc *arcs, size_t arcs_len, const int64_t *start,
                      size_t start_len, uint64_t bids, uint32_t *choice, size_t choice_len, int64_t *prices, size_t prices_len,
                      uint32_t *hall_objects, size_t hall_objects_len, sigdorf_found *found);

/* The same by messages, as the program solves without --direct and sigdorf_solve did in version 1.0: a start is for as many objects as
 * persons, and where there are more and costs differ much it may take very long. What is written is that of the program's run. */
int32_t sigdorf_solve_by_messages(uint32_t persons, uint32_t objects, const sigdorf_arc *arcs, size_t arcs_len, const int64_t *start,
                                  size_t start_len, uint64_t bids, uint32_t *choice, size_t choice_len, int64_t *prices,
                                  size_t prices_len, uint32_t *hall_objects, size_t hall_objects_len, sigdorf_found *found);

/* Solves as sigdorf_solve does, but the problem of a table, which has a row for each person and in it an entry for each object: the cost
 * of person i and object j is at costs[i * stride + j], and an entry that equals `none` is no arc, but a gap. What is between
 * the rows, or after the last one, is not read. `objects` 0 means as many as persons. The arcs are those of the entries that
 * are no gap, row by row; SIGDORF_TOO_MANY_ARCS means more than 268,435,456 such entries.
 *
 * All of sigdorf_solve's statuses and fields hold of this problem, but for three of them:
 * SIGDORF_OPTIMAL, SIGDORF_BRACKET: choice[i] is the OBJECT of person i. His entry for it is no gap, and costs what his arc costs. The
 *   place of that arc, by which sigdorf_check takes an answer, is the number of entries before his that are no gap: without gaps
 *   i * objects + choice[i].
 * SIGDORF_SIZES: also where `stride` is below the number of objects, where persons * objects is 2^32 or more, or where not every row lies
 *   within costs_len entries: at least (persons - 1) * stride + objects of them, and none at all where persons is 0. It comes before
 *   every other fault.
 * SIGDORF_REFUSED: found->place of SIGDORF_COST is i * objects + j for the entry of person i and object j, whatever the stride (where
 *   `objects` is 0, as many as persons count). */
int32_t sigdorf_solve_dense(uint32_t persons, uint32_t objects, const int64_t *costs, size_t costs_len, size_t stride, int64_t none,
                            const int64_t *start, size_t start_len, uint64_t bids, uint32_t *choice, size_t choice_len, int64_t *prices,
                            size_t prices_len, uint32_t *hall_objects, size_t hall_objects_len, sigdorf_found *found);

/* As sigdorf_solve and sigdorf_solve_dense, under a watch. Where it has ended the search, watch->stopped is 1, and the status is
 * SIGDORF_BRACKET with the kind SIGDORF_BIDS, or the one that the search had come to anyway. Else watch->stopped is 0, and all is as
 * without a watch. So it is where the watch has no limit and no descriptors. SIGDORF_MEMORY is also where the system has no timer
 * left. `stopped` and `asked` are written whatever the status. What ends before some million arcs or entries are looked at may come
 * to its end under a time that has passed. */
int32_t sigdorf_solve_watched(uint32_t persons, uint32_t objects, const sigdorf_arc *arcs, size_t arcs_len, const int64_t *start,
                              size_t start_len, uint64_t bids, sigdorf_watch *watch, uint32_t *choice, size_t choice_len, int64_t *prices,
                              size_t prices_len, uint32_t *hall_objects, size_t hall_objects_len, sigdorf_found *found);

int32_t sigdorf_solve_dense_watched(uint32_t persons, uint32_t objects, const int64_t *costs, size_t costs_len, size_t stride, int64_t none,
                                    const int64_t *start, size_t start_len, uint64_t bids, sigdorf_watch *watch, uint32_t *choice,
                                    size_t choice_len, int64_t *prices, size_t prices_len, uint32_t *hall_objects, size_t hall_objects_len,
                                    sigdorf_found *found);

/* For `until`: the time of CLOCK_MONOTONIC after so many seconds. Of a number that isn't above 0 it is now. Not proved. */
int64_t sigdorf_until(double seconds);

/* Solves the problem of a table of doubles, which lies as that of sigdorf_solve_dense. Any finite cost is taken as the
 * number that it is, and counts to its last bit; +infinity is no arc, but a gap. Tested only, as the top of this file says.
 *
 * SIGDORF_OPTIMAL: choice[i] is the OBJECT of person i; no two persons have the same; and no assignment has a smaller sum
 *   of just these doubles, added without rounding. found->cost is the double next to that sum. Of several least
 *   assignments the first is written: person 0 has the lowest object that it has in any of them, then person 1 the lowest
 *   that this leaves, and so on.
 * SIGDORF_BRACKET: an assignment whose sum is above the least one by found->gap at most, which was rounded up. It is left
 *   only where a phase has made `bids` bids, or prices have come to 2^61.
 * SIGDORF_INFEASIBLE: as of sigdorf_solve.
 * SIGDORF_SIZES, SIGDORF_MEMORY, SIGDORF_REFUSED: as of sigdorf_solve_dense, but that there are 4,194,303 objects at most,
 *   and that entries that are no gap number 268,435,456 at most together with the persons. NaN and -infinity are
 *   SIGDORF_COST.
 * There are no prices: exact ones take more than 64 bits. A field or an array that a status does not name keeps its values.
 *
 * It takes 8 bytes an entry, beside what sigdorf_solve_dense takes of the same table. Of a table of 2,500 entries and more
 * of which a quarter are gaps it takes 20 bytes for each entry that is none, beside what sigdorf_solve takes. In both calls
 * how the thread rounds, and whether it flushes small numbers to zero, makes no difference. */
int32_t sigdorf_solve_dense_f64(uint32_t persons, uint32_t objects, const double *costs, size_t costs_len,
                                size_t stride, uint64_t bids, uint32_t *choice, size_t choice_len,
                                uint32_t *hall_objects, size_t hall_objects_len, sigdorf_found_f64 *found);

/* The same under a watch for all its searches together: once it has ended one, no other begins. Then the status is
 * SIGDORF_BRACKET, as where bids did not suffice, unless the answer was there anyway. Nothing is written to `progress`,
 * since costs in between are in units of a search. Tested only. */
int32_t sigdorf_solve_dense_f64_watched(uint32_t persons, uint32_t objects, const double *costs, size_t costs_len,
                                        size_t stride, uint64_t bids, sigdorf_watch *watch, uint32_t *choice,
                                        size_t choice_len, uint32_t *hall_objects, size_t hall_objects_len,
                                        sigdorf_found_f64 *found);

/* Pairs persons with objects where that costs no more than a gate, as trackers ask: whoever has no good object stays free.
 * The table is that of sigdorf_solve_dense_f64, but that there may be any numbers of persons and objects; 0 of either
 * means that there is none. Tested only, as the top of this file says.
 *
 * The pairs have the least sum, where a person that stays free costs the gate. So no pair above the gate is made, and one
 * of just the gate counts as much as none. The sum is exact, as above. `gate` is any finite double.
 *
 * SIGDORF_OPTIMAL: choice[i] is the OBJECT of person i, or SIGDORF_FREE; no two persons have the same. found->cost is the
 *   double next to the sum of the pairs' costs, and found->persons how many pairs there are. Of several best answers the
 *   first is written, as above, where staying free comes after all objects; with more persons than objects the same goes
 *   for objects.
 * SIGDORF_BRACKET: the same, but that the sum, with the gate for each person that stays free, is above the least one by
 *   found->gap at most.
 * SIGDORF_SIZES, SIGDORF_MEMORY, SIGDORF_REFUSED: as above; persons and objects number 4,194,303 at most together, and
 *   entries within the gate 268,435,456 at most, together with twice the smaller side.
 *
 * The table is not made wider for those that stay free: it takes 8 bytes an entry, beside what sigdorf_solve_dense takes of
 * the same table without gaps. Of a table of 2,500 entries and more of which at most a fifth are within the gate it takes
 * 20 bytes for each of these, beside what sigdorf_solve takes. */
int32_t sigdorf_match(uint32_t persons, uint32_t objects, const double *costs, size_t costs_len, size_t stride,
                      double gate, uint64_t bids, uint32_t *choice, size_t choice_len, sigdorf_found_f64 *found);

/* Matches many tables, one after another, each as sigdorf_match does: the same is written, whatever the other tables
 * are, and a table at fault costs no other one its answer. `statuses` and `found` have a place for each table: its
 * status, and what that names. `choice` has a place for each person of each table, those of the first table first; a
 * table without an answer has its places too. Tables may share costs. Tested only, as the top of this file says.
 *
 * SIGDORF_OPTIMAL: that is the status of every table; so it is where there are none.
 * SIGDORF_SOME: it isn't. Each table has its own in `statuses`.
 * SIGDORF_SIZES: `statuses` or `found` are not as many as the tables, or choice_len is not the number of their persons
 *   together. Nothing was written.
 *
 * Working memory is taken once, grows to what the largest table takes, and is given back at the end; each search in
 * whole numbers takes its own. No thread is started; several may call, each with some of the tables. */
int32_t sigdorf_match_many(const sigdorf_table_f64 *tables, size_t tables_len, uint64_t bids, uint32_t *choice,
                           size_t choice_len, int32_t *statuses, size_t statuses_len, sigdorf_found_f64 *found,
                           size_t found_len);

/* The two matches under a watch, as sigdorf_solve_dense_f64_watched has it. Tested only.
 *
 * SIGDORF_BRACKET, where the watch has ended the search: the pairs found by then, none of them above the gate; found->gap says
 *   how far above the least sum theirs may be, and may be 0.
 *
 * Of many tables the watch is one for all. The table at which it ends them has its answer or SIGDORF_BRACKET, and no later one is
 * begun: these have the status SIGDORF_UNREACHED, and their places in `choice` and `found` keep their values. So it is with all
 * tables where the watch had come to its end before. */
int32_t sigdorf_match_watched(uint32_t persons, uint32_t objects, const double *costs, size_t costs_len, size_t stride,
                              double gate, uint64_t bids, sigdorf_watch *watch, uint32_t *choice, size_t choice_len,
                              sigdorf_found_f64 *found);

int32_t sigdorf_match_many_watched(const sigdorf_table_f64 *tables, size_t tables_len, uint64_t bids,
                                   sigdorf_watch *watch, uint32_t *choice, size_t choice_len, int32_t *statuses,
                                   size_t statuses_len, sigdorf_found_f64 *found, size_t found_len);

/* Checks an answer, whoever found it. SIGDORF_OPTIMAL: choice, cost and prices are as under SIGDORF_OPTIMAL above. */
int32_t sigdorf_check(uint32_t persons, uint32_t objects, const sigdorf_arc *arcs, size_t arcs_len, const uint32_t *choice,
                      size_t choice_len, const int64_t *prices, size_t prices_len, int64_t cost, sigdorf_found *found);

/* Checks a Hall set, whoever found it. SIGDORF_OPTIMAL: all arcs of these persons lead to these objects, which are fewer. */
int32_t sigdorf_check_hall(uint32_t persons, uint32_t objects, const sigdorf_arc *arcs, size_t arcs_len, const uint32_t *hall_persons,
                           size_t hall_persons_len, const uint32_t *hall_objects, size_t hall_objects_len, sigdorf_found *found);

/* The version of the library that a program has found, as SIGDORF_VERSION of its own header, and a status in words. Neither is proved. The
 * texts are constant, and stay the library's. */
const char *sigdorf_version(void);
const char *sigdorf_status_text(int32_t status);

#ifdef __cplusplus
}
#endif

#if defined(__STDC_VERSION__) && __STDC_VERSION__ >= 201112L
_Static_assert(sizeof(sigdorf_arc) == 16 && offsetof(sigdorf_arc, person) == 8 && offsetof(sigdorf_arc, object) == 12, "layout of an arc");
_Static_assert(sizeof(sigdorf_found) == 64 && offsetof(sigdorf_found, persons) == 16 && offsetof(sigdorf_found, place) == 28, "layout of what is found");
_Static_assert(sizeof(sigdorf_found_f64) == 64 && offsetof(sigdorf_found_f64, place) == 28, "layout of doubles' found");
_Static_assert(sizeof(sigdorf_watch) == 24 && offsetof(sigdorf_watch, progress) == 12 && offsetof(sigdorf_watch, asked) == 20, "layout of a watch");
_Static_assert(sizeof(sigdorf_progress) == 40 && offsetof(sigdorf_progress, bids) == 24 && offsetof(sigdorf_progress, known) == 36, "layout of progress");
_Static_assert(sizeof(sigdorf_table_f64) == 40 && offsetof(sigdorf_table_f64, gate) == 32, "layout of a table");
#endif

#endif
