/* Null pointers of length 0: each call answers as it does where they aren't null. The last line is `N passed, M failed`. */
#include "sigdorf.h"
#include "want.h"
#include <stdio.h>
#include <string.h>

static const sigdorf_arc arcs[] = {{1, 0, 0}, {2, 0, 1}, {1, 1, 0}, {4, 1, 1}};
static const int64_t costs[] = {1, 2, 1, 4};
/* What null pointers stand for: no values, or a pointer to none of them. */
static sigdorf_arc no_arcs[1];
static int64_t no_start[1], no_prices[1];
static double no_doubles[1];
static uint32_t no_choice[1], no_hall[1];
static uint32_t choice[2], hall[2];
static int64_t prices[2];
static sigdorf_found found;
static sigdorf_found_f64 found_f64;
static sigdorf_watch watch = {0, -1, -1, 0, 0};

static void starts(void) {
    const uint64_t bids = SIGDORF_USUAL_BIDS;
    want("solve", sigdorf_solve(2, 0, arcs, 4, NULL, 0, bids, choice, 2, prices, 2, hall, 2, &found), SIGDORF_OPTIMAL);
    want("by messages", sigdorf_solve_by_messages(2, 0, arcs, 4, NULL, 0, bids, choice, 2, prices, 2, hall, 2, &found), SIGDORF_OPTIMAL);
    want("a table", sigdorf_solve_dense(2, 0, costs, 4, 2, -1, NULL, 0, bids, choice, 2, prices, 2, hall, 2, &found), SIGDORF_OPTIMAL);
    want("watched", sigdorf_solve_watched(2, 0, arcs, 4, NULL, 0, bids, &watch, choice, 2, prices, 2, hall, 2, &found), SIGDORF_OPTIMAL);
    want("a watched table", sigdorf_solve_dense_watched(2, 0, costs, 4, 2, -1, NULL, 0, bids, &watch, choice, 2, prices, 2, hall, 2, &found),
         SIGDORF_OPTIMAL);
    want("cost", found.cost, 3);
}

/* A status of a call with nulls, and of the same with none. */
static void want_both(const char *what, int32_t with_nulls, int32_t without, int32_t status) {
    want(what, with_nulls, status);
    want(what, without, status);
}

#define BOTH(status, call, none, ...) want_both(#call, call none, call(__VA_ARGS__), status)

static void nobody(void) {
    BOTH(SIGDORF_REFUSED, sigdorf_solve, (0, 0, NULL, 0, NULL, 0, 1, NULL, 0, NULL, 0, NULL, 0, &found), 0, 0, no_arcs, 0, no_start, 0, 1,
         no_choice, 0, no_prices, 0, no_hall, 0, &found);
    BOTH(SIGDORF_REFUSED, sigdorf_solve_by_messages, (0, 0, NULL, 0, NULL, 0, 1, NULL, 0, NULL, 0, NULL, 0, &found), 0, 0, no_arcs, 0,
         no_start, 0, 1, no_choice, 0, no_prices, 0, no_hall, 0, &found);
    BOTH(SIGDORF_REFUSED, sigdorf_solve_dense, (0, 0, NULL, 0, 0, 0, NULL, 0, 1, NULL, 0, NULL, 0, NULL, 0, &found), 0, 0, no_start, 0, 0,
         0, no_start, 0, 1, no_choice, 0, no_prices, 0, no_hall, 0, &found);
    BOTH(SIGDORF_REFUSED, sigdorf_solve_watched, (0, 0, NULL, 0, NULL, 0, 1, &watch, NULL, 0, NULL, 0, NULL, 0, &found), 0, 0, no_arcs, 0,
         no_start, 0, 1, &watch, no_choice, 0, no_prices, 0, no_hall, 0, &found);
    BOTH(SIGDORF_REFUSED, sigdorf_solve_dense_watched, (0, 0, NULL, 0, 0, 0, NULL, 0, 1, &watch, NULL, 0, NULL, 0, NULL, 0, &found), 0, 0,
         no_start, 0, 0, 0, no_start, 0, 1, &watch, no_choice, 0, no_prices, 0, no_hall, 0, &found);
    BOTH(SIGDORF_REFUSED, sigdorf_check, (0, 0, NULL, 0, NULL, 0, NULL, 0, 0, &found), 0, 0, no_arcs, 0, no_choice, 0, no_prices, 0, 0,
         &found);
    BOTH(SIGDORF_REFUSED, sigdorf_check_hall, (0, 0, NULL, 0, NULL, 0, NULL, 0, &found), 0, 0, no_arcs, 0, no_choice, 0, no_hall, 0, &found);
    /* Persons without an arc are a Hall set without objects. */
    BOTH(SIGDORF_OPTIMAL, sigdorf_check_hall, (2, 0, NULL, 0, (uint32_t[]){0}, 1, NULL, 0, &found), 2, 0, no_arcs, 0, (uint32_t[]){0}, 1,
         no_hall, 0, &found);
    BOTH(SIGDORF_INFEASIBLE, sigdorf_solve, (2, 0, NULL, 0, NULL, 0, 1, choice, 2, prices, 2, hall, 2, &found), 2, 0, no_arcs, 0, no_start, 0,
         1, choice, 2, prices, 2, hall, 2, &found);
    BOTH(SIGDORF_SIZES, sigdorf_solve, (2, 0, arcs, 4, NULL, 0, 1, NULL, 0, prices, 2, hall, 2, &found), 2, 0, arcs, 4, no_start, 0, 1,
         no_choice, 0, prices, 2, hall, 2, &found);
}

static void doubles(void) {
    BOTH(SIGDORF_REFUSED, sigdorf_solve_dense_f64, (0, 0, NULL, 0, 0, 1, NULL, 0, NULL, 0, &found_f64), 0, 0, no_doubles, 0, 0, 1, no_choice,
         0, no_hall, 0, &found_f64);
    BOTH(SIGDORF_REFUSED, sigdorf_solve_dense_f64_watched, (0, 0, NULL, 0, 0, 1, &watch, NULL, 0, NULL, 0, &found_f64), 0, 0, no_doubles, 0, 0,
         1, &watch, no_choice, 0, no_hall, 0, &found_f64);
    BOTH(SIGDORF_OPTIMAL, sigdorf_match, (0, 0, NULL, 0, 0, 1.0, 1, NULL, 0, &found_f64), 0, 0, no_doubles, 0, 0, 1.0, 1, no_choice, 0,
         &found_f64);
    BOTH(SIGDORF_OPTIMAL, sigdorf_match, (2, 0, NULL, 0, 0, 1.0, 1, choice, 2, &found_f64), 2, 0, no_doubles, 0, 0, 1.0, 1, choice, 2,
         &found_f64);
    want("nobody is paired", choice[0] == SIGDORF_FREE && found_f64.persons == 0, 1);
    want("watched", sigdorf_match_watched(0, 0, NULL, 0, 0, 1.0, 1, &watch, NULL, 0, &found_f64), SIGDORF_OPTIMAL);
    want("no tables", sigdorf_match_many(NULL, 0, 1, NULL, 0, NULL, 0, NULL, 0), SIGDORF_OPTIMAL);
    want("no tables, watched", sigdorf_match_many_watched(NULL, 0, 1, &watch, NULL, 0, NULL, 0, NULL, 0), SIGDORF_OPTIMAL);
    const sigdorf_table_f64 empty[] = {{0, 0, NULL, 0, 0, 1.0}, {0, 3, NULL, 0, 3, 1.0}};
    int32_t statuses[2];
    sigdorf_found_f64 both[2];
    want("tables of nobody", sigdorf_match_many(empty, 2, 1, NULL, 0, statuses, 2, both, 2), SIGDORF_OPTIMAL);
}

int main(void) {
    starts();
    nobody();
    doubles();
    printf("%d passed, %d failed\n", passed, failed);
    return failed != 0;
}
