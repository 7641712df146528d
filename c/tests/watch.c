/* Watched calls: a time that has passed, descriptors that are written to before and within a call, records of progress, and
 * watches that never end anything. The last line is `N passed, M failed`. */
#define _DEFAULT_SOURCE
#include "sigdorf.h"
#include "want.h"
#include <fcntl.h>
#include <math.h>
#include <pthread.h>
#include <stdio.h>
#include <stdlib.h>
#include <string.h>
#include <time.h>
#include <unistd.h>

/* Of the second the search over a table looks at more than the entries between two questions. */
enum { MOST = 2000, SOME = 800, DEGREE = 8, FEW = 9 };
static const sigdorf_watch NONE_AT_ALL = {0, -1, -1, 7, 7};

/* ---- Problems */

static uint64_t seed = 88172645463325252;

static uint32_t below(uint32_t end) {
    seed ^= seed << 13, seed ^= seed >> 7, seed ^= seed << 17;
    return (uint32_t)((seed >> 20) % end);
}

static int64_t *costs;
static double *floats;
static sigdorf_arc *arcs;
static uint32_t choice[MOST], other_choice[MOST], hall[MOST];
static int64_t prices[MOST], other_prices[MOST], start[1];
static sigdorf_found found, other_found;
static sigdorf_found_f64 found_f64;

/* A table of products of two rising lists takes long: everybody wants the same objects. Its least cost, by which the
 * dearest person has the cheapest object. */
static int64_t take_products(uint32_t side) {
    static int64_t ours[MOST], theirs[MOST];
    int64_t least = 0;
    for (uint32_t i = 0; i < side; i++) {
        ours[i] = (i ? ours[i - 1] : 0) + 1 + below(15);
        theirs[i] = (i ? theirs[i - 1] : 0) + 1 + below(15);
    }
    for (uint32_t e = 0; e < side * side; e++) {
        costs[e] = ours[e / side] * theirs[e % side];
        floats[e] = (double)costs[e] / 3;
        arcs[e] = (sigdorf_arc){costs[e], e / side, e % side};
    }
    for (uint32_t i = 0; i < side; i++) least += ours[i] * theirs[side - 1 - i];
    return least;
}

static void take_random(uint32_t side, uint32_t most) {
    for (uint32_t e = 0; e < side * side; e++) {
        costs[e] = below(most);
        arcs[e] = (sigdorf_arc){costs[e], e / side, e % side};
    }
}

static int32_t solve_table(uint32_t side, sigdorf_watch *watch) {
    return sigdorf_solve_dense_watched(side, side, costs, side * side, side, INT64_MAX, start, 0, SIGDORF_USUAL_BIDS, watch, choice, side,
                                       prices, side, hall, side, &found);
}

static int32_t solve_list(uint32_t side, sigdorf_watch *watch) {
    int32_t status = sigdorf_solve_watched(side, side, arcs, side * side, start, 0, SIGDORF_USUAL_BIDS, watch, choice, side, prices, side,
                                           hall, side, &found);
    for (uint32_t i = 0; i < side; i++) choice[i] %= side;
    return status;
}

/* A list of so many arcs of each person, to its own object and to others by chance. */
static int32_t solve_sparse(uint32_t side, sigdorf_watch *watch) {
    return sigdorf_solve_watched(side, side, arcs, side * DEGREE, start, 0, SIGDORF_USUAL_BIDS, watch, choice, side, prices, side, hall,
                                 side, &found);
}

static int64_t take_sparse(uint32_t side) {
    for (uint32_t e = 0; e < side * DEGREE; e++)
        arcs[e] = (sigdorf_arc){below(1000000), e / DEGREE, e % DEGREE ? below(side) : e / DEGREE};
    sigdorf_watch watch = NONE_AT_ALL;
    return solve_sparse(side, &watch) == SIGDORF_OPTIMAL ? found.cost : -1;
}

static int32_t solve_floats(uint32_t side, sigdorf_watch *watch) {
    return sigdorf_solve_dense_f64_watched(side, side, floats, side * side, side, SIGDORF_USUAL_BIDS, watch, choice, side, hall, side,
                                           &found_f64);
}

/* The middle cost of products of so many, so that half of all pairs are within it. */
static double gate;

static int32_t match_floats(uint32_t side, sigdorf_watch *watch) {
    return sigdorf_match_watched(side, side, floats, side * side, side, gate, SIGDORF_USUAL_BIDS, watch, choice, side, &found_f64);
}

static double now(void) {
    struct timespec time;
    clock_gettime(CLOCK_MONOTONIC, &time);
    return (double)time.tv_sec + (double)time.tv_nsec * 1e-9;
}

/* Whether the choice is an assignment; its cost, by the numbers of the table. */
static int is_assignment(uint32_t side, int64_t *cost) {
    static unsigned char is_taken[MOST];
    memset(is_taken, 0, sizeof is_taken);
    *cost = 0;
    for (uint32_t i = 0; i < side; i++) {
        if (choice[i] >= side || is_taken[choice[i]]++) return 0;
        *cost += costs[i * side + choice[i]];
    }
    return 1;
}

/* ---- What ends a search */

typedef int32_t call(uint32_t side, sigdorf_watch *watch);

/* A call that its watch has ended: a bracket around the least cost. */
static void want_stopped(const char *what, call *solve, uint32_t side, int64_t least, sigdorf_watch watch) {
    int64_t cost;
    watch.stopped = watch.asked = 77;
    memset(choice, 0x55, sizeof choice);
    want(what, solve(side, &watch), SIGDORF_BRACKET);
    want(what, watch.stopped, 1);
    want(what, watch.asked > 0 && watch.asked != 77, 1);
    want(what, is_assignment(side, &cost), 1);
    if (solve == solve_floats) {
        want(what, found_f64.kind, SIGDORF_BIDS);
        want(what, fabs(found_f64.cost - (double)cost / 3) <= 1e-9 * (double)cost, 1);
        want(what, (found_f64.cost - found_f64.gap) * (1 - 1e-9) <= (double)least / 3 && least <= cost, 1);
        return;
    }
    want(what, found.kind, SIGDORF_BIDS);
    want(what, found.cost, cost);
    want(what, found.lower <= least && least <= cost, 1);
}

static void *write_later(void *descriptor) {
    usleep(30000);
    if (write(*(int *)descriptor, "", 1) != 1) abort();
    return NULL;
}

static void pipe_of(int *ends) {
    if (pipe(ends)) abort();
    fcntl(ends[1], F_SETFL, O_NONBLOCK);
}

static void ends_at_once(call *solve, uint32_t side, int64_t least) {
    sigdorf_watch watch = NONE_AT_ALL;
    int ends[2];
    watch.until = 1;
    want_stopped("a time that has passed", solve, side, least, watch);
    watch.until = sigdorf_until(0);
    want_stopped("no time", solve, side, least, watch);
    watch.until = 0;
    pipe_of(ends);
    watch.stop = ends[0];
    if (write(ends[1], "", 1) != 1) abort();
    want_stopped("a pipe that was written to", solve, side, least, watch);
    close(ends[0]), close(ends[1]);
}

/* A search that would take longer, where reading the entries takes a part of the time. */
static void ends_soon(call *solve, uint32_t side) {
    sigdorf_watch watch = NONE_AT_ALL;
    int ends[2];
    int64_t cost;
    pthread_t writer;
    pipe_of(ends);
    watch.stop = ends[0];
    double began = now();
    if (pthread_create(&writer, NULL, write_later, &ends[1])) abort();
    want("another thread's word", solve(side, &watch), SIGDORF_BRACKET);
    want("another thread's word, within the time", now() - began < 1, 1);
    want("another thread's word, stopped", watch.stopped, 1);
    want("another thread's word, pairs", is_assignment(side, &cost), 1);
    pthread_join(writer, NULL);
    close(ends[0]), close(ends[1]);
    watch.stop = -1, watch.until = sigdorf_until(0.03);
    began = now();
    want("a time", solve(side, &watch), SIGDORF_BRACKET);
    want("a time, within it", now() - began < 1, 1);
    want("a time, stopped", watch.stopped, 1);
    want("a time, pairs", is_assignment(side, &cost), 1);
}

/* ---- Matches */

/* Whether pairs are within the gate, and nobody has two; what they cost together with the gate of each that is free. */
static int are_pairs(uint32_t side, double *sum) {
    static unsigned char is_taken[MOST];
    memset(is_taken, 0, sizeof is_taken);
    *sum = 0;
    for (uint32_t i = 0; i < side; i++) {
        double cost = choice[i] == SIGDORF_FREE ? gate : floats[i * side + choice[i] % side];
        if (choice[i] != SIGDORF_FREE && (choice[i] >= side || is_taken[choice[i]]++)) return 0;
        if (cost > gate) return 0;
        *sum += cost;
    }
    return 1;
}

static void want_stopped_match(const char *what, uint32_t side, double least, sigdorf_watch watch) {
    double sum;
    memset(choice, 0x55, sizeof choice);
    want(what, match_floats(side, &watch), SIGDORF_BRACKET);
    want(what, watch.stopped, 1);
    want(what, are_pairs(side, &sum), 1);
    want(what, found_f64.gap >= 0 && sum - found_f64.gap <= least * (1 + 1e-12) && sum >= least * (1 - 1e-12), 1);
    want(what, found_f64.kind, SIGDORF_BIDS);
}

/* A gate within the costs, and one beyond them all: each has another way through the costs. */
static void matches(uint32_t side) {
    int ends[2];
    for (int k = 0; k < 2; k++) {
        sigdorf_watch watch = NONE_AT_ALL;
        double least;
        gate = k ? 1e9 : floats[side / 2 * side + side / 2];
        want("a match", match_floats(side, &watch), SIGDORF_OPTIMAL);
        want("a match, its pairs", are_pairs(side, &least) && watch.stopped == 0, 1);
        memcpy(other_choice, choice, sizeof choice);
        watch.until = sigdorf_until(1000);
        want("a match in time", match_floats(side, &watch) == SIGDORF_OPTIMAL && !memcmp(choice, other_choice, side * sizeof *choice), 1);
        watch.until = 1;
        want_stopped_match("a match, a time that has passed", side, least, watch);
        pipe_of(ends);
        watch.until = 0, watch.stop = ends[0];
        if (write(ends[1], "", 1) != 1) abort();
        want_stopped_match("a match, a pipe that was written to", side, least, watch);
        close(ends[0]), close(ends[1]);
    }
    sigdorf_watch watch = NONE_AT_ALL;
    want("another length", sigdorf_match_watched(2, 2, floats, 4, 2, 1, 9, &watch, choice, 1, &found_f64), SIGDORF_SIZES);
    want("no gate", sigdorf_match_watched(2, 2, floats, 4, 2, NAN, 9, &watch, choice, 2, &found_f64), SIGDORF_REFUSED);
    want("its watch", watch.stopped | watch.asked, 0);
}

enum { TABLES = 6, SMALL = 3 };

/* Tables of whom the middle ones are as large as the side, each with the watch's answer or none. */
static void many(uint32_t side) {
    static uint32_t chosen[2 * MOST + 4 * SMALL];
    sigdorf_table_f64 tables[TABLES];
    sigdorf_found_f64 founds[TABLES];
    int32_t statuses[TABLES];
    const double few[] = {1, 9, 9, 9, 0.5, 9, 9, 0.75, 9};
    for (int k = 0; k < TABLES; k++) {
        int is_small = k != 2 && k != 3;
        uint32_t own = is_small ? SMALL : side;
        tables[k] = (sigdorf_table_f64){own, own, is_small ? few : floats, (size_t)own * own, own, is_small ? 2 : 1e9};
    }
    size_t persons = 2 * (size_t)side + 4 * SMALL;
#define MANY(watch)                                                                                                     \
    (memset(statuses, 0x55, sizeof statuses), memset(founds, 0x55, sizeof founds), memset(chosen, 0x55, sizeof chosen), \
     sigdorf_match_many_watched(tables, TABLES, SIGDORF_USUAL_BIDS, watch, chosen, persons, statuses, TABLES, founds, TABLES))
    sigdorf_watch watch = NONE_AT_ALL;
    want("many", MANY(&watch), SIGDORF_OPTIMAL);
    want("many, not stopped", watch.stopped, 0);
    watch.until = 1;
    want("many after the time", MANY(&watch), SIGDORF_SOME);
    want("many after the time, stopped", watch.stopped, 1);
    int bad = 0;
    for (int k = 0; k < TABLES; k++) bad += statuses[k] != SIGDORF_UNREACHED || founds[k].kind != 0x55555555;
    for (size_t i = 0; i < persons; i++) bad += chosen[i] != 0x55555555;
    want("nothing is written", bad, 0);
    watch.until = sigdorf_until(0.03);
    double began = now();
    want("many in a time", MANY(&watch), SIGDORF_SOME);
    want("many in a time, within it", now() - began < 1, 1);
    int is_ended = statuses[2] == SIGDORF_BRACKET && statuses[3] == SIGDORF_UNREACHED;
    is_ended |= statuses[2] == SIGDORF_OPTIMAL && statuses[3] == SIGDORF_BRACKET;
    want("the first ones are answered", statuses[0] | statuses[1] | (int32_t)chosen[0], 0);
    want("one is ended", is_ended, 1);
    want("the last ones are not reached", statuses[4] == SIGDORF_UNREACHED && statuses[5] == SIGDORF_UNREACHED, 1);
    want("and not written", chosen[persons - 1] == 0x55555555 && founds[5].persons == 0x55555555, 1);
    want("other lengths",
         sigdorf_match_many_watched(tables, TABLES, 1, &watch, chosen, persons - 1, statuses, TABLES, founds, TABLES), SIGDORF_SIZES);
    want("other lengths, watch", watch.stopped, 0);
}

/* ---- What a search tells */

/* Takes all that a pipe has: how many records they are, or -1 where the last one isn't whole. */
static int take_records(int descriptor, sigdorf_progress *records, int most) {
    fcntl(descriptor, F_SETFL, O_NONBLOCK);
    ssize_t bytes = read(descriptor, records, (size_t)most * sizeof *records);
    return bytes < 0 ? 0 : bytes % (ssize_t)sizeof *records ? -1 : (int)(bytes / (ssize_t)sizeof *records);
}

static void tells(call *solve, uint32_t side, int64_t least) {
    static sigdorf_progress records[4096];
    sigdorf_watch watch = NONE_AT_ALL;
    int ends[2], bad = 0;
    pipe_of(ends);
    watch.progress = ends[1];
    want("progress, optimal", solve(side, &watch), SIGDORF_OPTIMAL);
    want("progress, cost", found.cost, least);
    want("progress, not stopped", watch.stopped, 0);
    int count = take_records(ends[0], records, 4096), known = 0;
    want("whole records", count > 0, 1);
    want("asked for them", watch.asked > 0, 1);
    for (int k = 0; k < count; k++) {
        known += records[k].known == 1;
        bad += records[k].known > 1 || records[k].assigned > side;
        bad += records[k].known && !(records[k].lower <= least && least <= records[k].cost);
        bad += !records[k].known && (records[k].lower || records[k].cost);
    }
    printf("%d records of %u persons, %d with costs\n", count, side, known);
    want("records", bad, 0);
    /* Phases of a list leave assignments behind. */
    if (solve == solve_sparse) want("records with costs", known > 0, 1);
    /* Full to its end: what it doesn't take is lost, and nobody waits. */
    while (write(ends[1], records, sizeof *records) > 0)
        ;
    while (write(ends[1], "", 1) > 0)
        ;
    want("a full pipe", solve(side, &watch), SIGDORF_OPTIMAL);
    want("a full pipe, cost", found.cost, least);
    close(ends[0]), close(ends[1]);
}

/* ---- What ends nothing */

static void want_same(const char *what, int32_t status, int32_t wanted, const sigdorf_watch *watch, uint32_t side) {
    int is_same = status == wanted && watch->stopped == 0 && !memcmp(choice, other_choice, side * sizeof *choice) &&
                  !memcmp(prices, other_prices, side * sizeof *prices) && found.cost == other_found.cost && found.lower == other_found.lower;
    want(what, is_same, 1);
}

static void ends_nothing(int count) {
    int ends[2];
    pipe_of(ends);
    for (int n = 0; n < count; n++) {
        uint32_t side = 1 + below(FEW);
        sigdorf_watch watch = NONE_AT_ALL;
        if (n % 2) watch.until = sigdorf_until(1000), watch.stop = ends[0];
        take_random(side, n % 3 ? 10 : 1000000000);
        memset(&found, 0, sizeof found), memset(&other_found, 0, sizeof other_found);
        int32_t wanted = sigdorf_solve_dense(side, side, costs, side * side, side, INT64_MAX, start, 0, SIGDORF_USUAL_BIDS, other_choice,
                                             side, other_prices, side, hall, side, &other_found);
        want_same("a table", solve_table(side, &watch), wanted, &watch, side);
        wanted = sigdorf_solve(side, side, arcs, side * side, start, 0, n % 5, other_choice, side, other_prices, side, hall, side,
                               &other_found);
        int32_t status = sigdorf_solve_watched(side, side, arcs, side * side, start, 0, n % 5, &watch, choice, side, prices, side, hall, side,
                                               &found);
        want_same("a list", status, wanted, &watch, side);
    }
    close(ends[0]), close(ends[1]);
}

static void doubles_end_nothing(void) {
    sigdorf_watch watch = NONE_AT_ALL;
    const uint32_t side = 300;
    for (uint32_t e = 0; e < side * side; e++) floats[e] = below(1u << 30) / 3.0;
    int32_t wanted = sigdorf_solve_dense_f64(side, side, floats, side * side, side, SIGDORF_USUAL_BIDS, other_choice, side, hall, side,
                                             &found_f64);
    double cost = found_f64.cost;
    want("doubles", solve_floats(side, &watch), wanted);
    want("doubles, cost", found_f64.cost == cost, 1);
    want("doubles, pairs", memcmp(choice, other_choice, side * sizeof *choice), 0);
    want("doubles, not stopped", watch.stopped, 0);
    watch.stopped = 7;
    want("doubles of another size", sigdorf_solve_dense_f64_watched(2, 2, floats, 3, 2, 0, &watch, choice, 2, hall, 2, &found_f64),
         SIGDORF_SIZES);
    want("doubles of another size, watch", watch.stopped, 0);
}

static void refuses(void) {
    sigdorf_watch watch = NONE_AT_ALL;
    watch.until = 1;
    take_random(2, 9);
    want("another length", sigdorf_solve_watched(2, 2, arcs, 4, start, 0, 9, &watch, choice, 1, prices, 2, hall, 2, &found), SIGDORF_SIZES);
    costs[3] = INT64_C(1) << 40, arcs[3].cost = costs[3];
    want("a cost", solve_table(2, &watch), SIGDORF_REFUSED);
    want("its fault", found.kind, SIGDORF_COST);
    want("its place", found.place, 3);
    want("an arc", sigdorf_solve_watched(2, 2, arcs, 4, start, 0, 9, &watch, choice, 2, prices, 2, hall, 2, &found), SIGDORF_REFUSED);
}

static void times(void) {
    int64_t before = sigdorf_until(-1), hour = sigdorf_until(3600);
    want("an hour", hour - before >= 3600 * INT64_C(1000000000) && hour - before < 3601 * INT64_C(1000000000), 1);
    want("the clock", fabs((double)before * 1e-9 - now()) < 1, 1);
    want("no number", sigdorf_until(NAN) - before < 1000000000, 1);
    want("never", sigdorf_until(INFINITY) == INT64_MAX && sigdorf_until(1e10) == INT64_MAX, 1);
}

int main(int count, char **words) {
    int is_small = count > 1 && !strcmp(words[1], "--small");
    costs = malloc(MOST * MOST * sizeof *costs), floats = malloc(MOST * MOST * sizeof *floats), arcs = malloc(MOST * MOST * sizeof *arcs);
    if (!costs || !floats || !arcs) abort();
    times();
    refuses();
    ends_nothing(is_small ? 200 : 2000);
    doubles_end_nothing();
    int64_t least = take_products(SOME);
    ends_at_once(solve_table, SOME, least);
    ends_at_once(solve_list, SOME, least);
    ends_at_once(solve_floats, SOME, least);
    matches(SOME);
    tells(solve_table, SOME, least);
    tells(solve_list, SOME, least);
    tells(solve_sparse, MOST, take_sparse(MOST));
    if (!is_small) {
        take_products(MOST);
        ends_soon(solve_table, MOST);
        ends_soon(solve_list, MOST);
        ends_soon(solve_floats, MOST);
        many(MOST);
    }
    free(costs), free(floats), free(arcs);
    printf("%d passed, %d failed\n", passed, failed);
    return failed != 0;
}
