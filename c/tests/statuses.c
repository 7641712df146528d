/* Calls each export, and provokes each status and each kind of fault, so that the header's numbers are tried against the library. The last
 * line is `N passed, M failed`. */
#include "sigdorf.h"
#include "want.h"
#include <inttypes.h>
#include <stdio.h>
#include <stdlib.h>
#include <string.h>

#define COUNT(list) (sizeof(list) / sizeof *(list))

static uint32_t choice[3], hall_objects[3];
static int64_t prices[4], no_prices[1];
static sigdorf_found found;

/* Two persons and two objects: the least cost is 3. */
static sigdorf_arc two[] = {{1, 0, 0}, {2, 0, 1}, {1, 1, 0}, {4, 1, 1}};

/* Direct, or by messages. */
static int32_t (*solver)(uint32_t, uint32_t, const sigdorf_arc *, size_t, const int64_t *, size_t, uint64_t, uint32_t *, size_t, int64_t *, size_t,
                         uint32_t *, size_t, sigdorf_found *) = sigdorf_solve;

static int32_t solve(uint32_t persons, uint32_t objects, const sigdorf_arc *arcs, size_t count, const int64_t *start, size_t start_len, uint64_t bids) {
    uint32_t meant = objects ? objects : persons;
    memset(&found, 0x55, sizeof found);
    return solver(persons, objects, arcs, count, start, start_len, bids, choice, persons > 3 ? 3 : persons, prices, meant > 4 ? 4 : meant,
                  hall_objects, persons > 3 ? 3 : persons, &found);
}

static void fault(const char *what, int32_t got, int32_t status, uint32_t kind, uint32_t place) {
    want(what, got, status);
    want(what, found.kind, kind);
    want(what, found.place, place);
}

static void solves(void) {
    want("optimal", solve(2, 0, two, COUNT(two), no_prices, 0, SIGDORF_USUAL_BIDS), SIGDORF_OPTIMAL);
    want("cost", found.cost, 3);
    want("untouched", found.kind, 0x55555555);
    want("first person", choice[0], 1);
    want("second person", choice[1], 2);
    want("its check", sigdorf_check(2, 0, two, COUNT(two), choice, 2, prices, 2, 3, &found), SIGDORF_OPTIMAL);
    int64_t start[2] = {prices[0], prices[1]};
    want("from its prices", solve(2, 2, two, COUNT(two), start, 2, SIGDORF_USUAL_BIDS), SIGDORF_OPTIMAL);
    want("cost from its prices", found.cost, 3);
    want("more objects", solve(2, 4, two, COUNT(two), no_prices, 0, SIGDORF_USUAL_BIDS), SIGDORF_OPTIMAL);
    want("cost with more objects", found.cost, 3);
    want("price of nobody's object", prices[3], 0);
    // Without its last arc it is no full table, which would be searched without bids.
    fault("no bids", solve(2, 0, two, COUNT(two) - 1, no_prices, 0, 0), SIGDORF_BRACKET, SIGDORF_BIDS, 0x55555555);
    want("bound", found.lower <= 3 && 3 <= found.cost, 1);
    sigdorf_arc both[] = {{1, 0, 1}, {1, 1, 1}};
    want("infeasible", solve(2, 0, both, 2, no_prices, 0, SIGDORF_USUAL_BIDS), SIGDORF_INFEASIBLE);
    want("persons", found.persons, 2);
    want("objects", found.objects, 1);
    want("the object", hall_objects[0], 1);
    want("its check", sigdorf_check_hall(2, 0, both, 2, choice, found.persons, hall_objects, found.objects, &found), SIGDORF_OPTIMAL);
}

/* Each refusal. With more objects than persons no run by messages starts, so its faults of a start are told apart. */
static void refusals(enum sigdorf_start_fault other_size, enum sigdorf_start_fault price) {
    sigdorf_arc arc = {0, 0, 0};
    want("sizes", solver(2, 0, two, COUNT(two), no_prices, 0, 1, choice, 1, prices, 2, hall_objects, 2, &found), SIGDORF_SIZES);
    want("sizes", solver(2, 0, two, COUNT(two), no_prices, 0, 1, choice, 2, prices, 1, hall_objects, 2, &found), SIGDORF_SIZES);
    want("sizes", solver(2, 0, two, COUNT(two), no_prices, 0, 1, choice, 2, prices, 2, hall_objects, 1, &found), SIGDORF_SIZES);
    fault("no persons", solve(0, 0, &arc, 0, no_prices, 0, 1), SIGDORF_REFUSED, SIGDORF_PERSONS, 0);
    fault("few objects", solve(2, 1, two, COUNT(two), no_prices, 0, 1), SIGDORF_REFUSED, SIGDORF_OBJECTS, 0);
    sigdorf_arc wrong[] = {two[0], two[1]};
    wrong[1].person = 2;
    fault("person", solve(2, 0, wrong, 2, no_prices, 0, 1), SIGDORF_REFUSED, SIGDORF_PERSON, 1);
    wrong[1] = (sigdorf_arc){0, 1, 2};
    fault("object", solve(2, 0, wrong, 2, no_prices, 0, 1), SIGDORF_REFUSED, SIGDORF_OBJECT, 1);
    wrong[1] = (sigdorf_arc){SIGDORF_MOST_COST + 1, 1, 1};
    fault("cost", solve(2, 0, wrong, 2, no_prices, 0, 1), SIGDORF_REFUSED, SIGDORF_COST, 1);
    wrong[1].cost = -SIGDORF_MOST_COST;
    want("greatest cost", solve(2, 0, wrong, 2, no_prices, 0, SIGDORF_USUAL_BIDS), SIGDORF_OPTIMAL);
    int64_t start[3] = {0, SIGDORF_HIGHEST_START, 0};
    want("highest start", solve(2, 0, two, COUNT(two), start, 2, SIGDORF_USUAL_BIDS), SIGDORF_OPTIMAL);
    start[1]++;
    fault("start too high", solve(2, 0, two, COUNT(two), start, 2, 1), SIGDORF_START, SIGDORF_PRICE, 1);
    start[0] = -1;
    fault("start below 0", solve(2, 0, two, COUNT(two), start, 2, 1), SIGDORF_START, SIGDORF_PRICE, 0);
    fault("start of another size", solve(2, 0, two, COUNT(two), start, 3, 1), SIGDORF_START, SIGDORF_OTHER_SIZE, 0);
    fault("start of another size with more objects", solve(2, 4, two, COUNT(two), start, 3, 1), SIGDORF_START, other_size, 0);
    fault("start below 0 with more objects", solve(2, 3, two, COUNT(two), start, 3, 1), SIGDORF_START, price, 0);
}

/* A start with more objects than persons, which only the direct solver takes. */
static void spare_starts(void) {
    int64_t start[4] = {0, SIGDORF_HIGHEST_START, 0, 7};
    want("start with more objects", solve(2, 4, two, COUNT(two), start, 4, SIGDORF_USUAL_BIDS), SIGDORF_OPTIMAL);
    want("cost from it", found.cost, 3);
    want("price of nobody's object from it", prices[3], 0);
    want("its check", sigdorf_check(2, 4, two, COUNT(two), choice, 2, prices, 4, 3, &found), SIGDORF_OPTIMAL);
    start[2]--;
    fault("start below 0 of nobody's object", solve(2, 4, two, COUNT(two), start, 4, 1), SIGDORF_START, SIGDORF_PRICE, 2);
}

static void checks(void) {
    uint32_t places[2] = {1, 2};
    int64_t right[3] = {0, 0, 0};
    solve(2, 0, two, COUNT(two), no_prices, 0, SIGDORF_USUAL_BIDS);
    memcpy(right, prices, 2 * sizeof *right);
#define CHECK(cost) sigdorf_check(2, 0, two, COUNT(two), places, 2, right, 2, cost, &found)
    want("sizes of a check", sigdorf_check(2, 0, two, COUNT(two), places, 2, right, 3, 3, &found), SIGDORF_SIZES);
    fault("wrong cost", CHECK(4), SIGDORF_INVALID, SIGDORF_WRONG_COST, 0);
    places[1] = 1;
    fault("another one's arc", CHECK(3), SIGDORF_INVALID, SIGDORF_MISPLACED, 1);
    places[1] = 4;
    fault("no arc", CHECK(3), SIGDORF_INVALID, SIGDORF_MISPLACED, 1);
    places[1] = 3;
    fault("an object twice", CHECK(6), SIGDORF_INVALID, SIGDORF_TWICE, 1);
    places[1] = 2;
    right[0] = -1;
    fault("a price below 0", CHECK(3), SIGDORF_INVALID, SIGDORF_UNSPELLED, 0);
    right[0] = 1000, right[1] = 0;
    fault("a better arc", CHECK(3), SIGDORF_INVALID, SIGDORF_SLACK, 1);
    sigdorf_arc one[] = {{0, 0, 0}};
    int64_t left[2] = {0, 5};
    fault("a price left over", sigdorf_check(1, 2, one, 1, (uint32_t[]){0}, 1, left, 2, 0, &found), SIGDORF_INVALID, SIGDORF_LEFT_OVER, 1);
    uint32_t persons[] = {0, 1}, objects[] = {0};
    fault("no Hall set", sigdorf_check_hall(2, 0, two, COUNT(two), persons, 2, objects, 1, &found), SIGDORF_INVALID, SIGDORF_NOT_HALL, 0);
    persons[0] = 1;
    fault("no rising persons", sigdorf_check_hall(2, 0, two, COUNT(two), persons, 2, objects, 1, &found), SIGDORF_INVALID, SIGDORF_UNSPELLED, 0);
    fault("check of no problem", sigdorf_check(1, 0, two, COUNT(two), places, 1, right, 1, 0, &found), SIGDORF_REFUSED, SIGDORF_OBJECT, 1);
}

/* How many GB of memory are free, as Linux tells it; 0 where it doesn't. */
static unsigned long free_memory(void) {
    unsigned long kilobytes = 0;
    char line[256];
    FILE *file = fopen("/proc/meminfo", "r");
    while (file != NULL && fgets(line, sizeof line, file) != NULL && sscanf(line, "MemAvailable: %lu", &kilobytes) != 1)
        ;
    if (file != NULL)
        fclose(file);
    return kilobytes >> 20;
}

/* A list of as many arcs as there may be, and of one more. It is never written, and so takes no memory; the call's copy takes 4.3 GB. */
static void most_arcs(void) {
    size_t count = (size_t)SIGDORF_MOST_ARCS + 1;
    sigdorf_arc *arcs = free_memory() < 16 ? NULL : calloc(count, sizeof *arcs);
    if (arcs == NULL) {
        printf("skipped: the most arcs, for want of 16 GB of free memory\n");
        return;
    }
    uint32_t persons[1] = {0}, objects[1] = {0};
    fault("too many arcs", sigdorf_check_hall(1, 0, arcs, count, persons, 1, objects, 0, &found), SIGDORF_REFUSED, SIGDORF_TOO_MANY_ARCS, 0);
    want("as many arcs", sigdorf_check_hall(1, 0, arcs, count - 1, persons, 1, objects, 0, &found), SIGDORF_INVALID);
    free(arcs);
}

/* The most of each that a problem may have, and one more. */
static void limits(void) {
    sigdorf_arc *arcs = two;
    uint32_t persons[1] = {0}, objects[1] = {0};
    want("as many persons", sigdorf_check_hall(SIGDORF_MOST_PERSONS, 0, arcs, 0, persons, 1, objects, 0, &found), SIGDORF_OPTIMAL);
    fault("too many persons", sigdorf_check_hall(SIGDORF_MOST_PERSONS + 1, 0, arcs, 0, persons, 1, objects, 0, &found), SIGDORF_REFUSED, SIGDORF_PERSONS, 0);
    want("as many objects", sigdorf_check_hall(1, SIGDORF_MOST_OBJECTS, arcs, 0, persons, 1, objects, 0, &found), SIGDORF_OPTIMAL);
    fault("too many objects", sigdorf_check_hall(1, SIGDORF_MOST_OBJECTS + 1, arcs, 0, persons, 1, objects, 0, &found), SIGDORF_REFUSED, SIGDORF_OBJECTS, 0);
}

/* Each status has a text of its own, and so has what is none. */
static void texts(void) {
    const int32_t statuses[] = {SIGDORF_OPTIMAL, SIGDORF_SIZES, SIGDORF_INFEASIBLE, SIGDORF_BRACKET, SIGDORF_REFUSED, SIGDORF_MEMORY, SIGDORF_START, SIGDORF_SOME, SIGDORF_UNREACHED,
                                1, -1};
    const size_t count = sizeof statuses / sizeof *statuses;
    want("the version", strcmp(sigdorf_version(), SIGDORF_VERSION), 0);
    for (size_t i = 0; i < count; i++)
        for (size_t k = 0; k < i; k++)
            want("the same text", strcmp(sigdorf_status_text(statuses[i]), sigdorf_status_text(statuses[k])) == 0, i == count - 1 && k == count - 2);
}

int main(int words, char **word) {
    texts();
    solves();
    refusals(SIGDORF_OTHER_SIZE, SIGDORF_PRICE);
    spare_starts();
    solver = sigdorf_solve_by_messages;
    solves();
    refusals(SIGDORF_NOT_SQUARE, SIGDORF_NOT_SQUARE);
    checks();
    limits();
    if (words < 2 || strcmp(word[1], "--small") != 0)
        most_arcs();
    printf("%d passed, %d failed\n", passed, failed);
    return failed != 0;
}
