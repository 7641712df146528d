/* One call of the library over one problem, and its memory: prints the arcs or entries, the caller's bytes of each, the
 * bytes of each at the peak of the process, without what the process had before, and what that is beside the caller's
 * own, as a share of it. Linux alone: the peak is VmHWM of /proc/self/status.
 *
 *     memory CALL SHAPE PERSONS OBJECTS DEGREE BIDS
 *
 * CALL is solve, messages, dense, or of doubles f64 or match. BIDS is the most bids of a phase, 0 for the usual ones.
 * Doubles are a third of the costs; the gate is a tenth of the greatest. SHAPE is:
 *   uniform   DEGREE objects of each person, one of them planted; of tables full ones
 *   products  all pairs, whose cost is the product of the two numbers
 *   gaps      of tables: with DEGREE entries a row at most, one of them planted
 *   holes     of tables: a full one, but that one entry in DEGREE is a gap
 *   crowd     of tables: a full one, but that half of the persons and one more want half of them as objects */
#include "../../c/sigdorf.h"
#include <math.h>
#include <stdio.h>
#include <stdlib.h>
#include <string.h>

static uint64_t state = 1;

/* A number below a bound, by the generator of Knuth's MMIX. */
static uint32_t drawn(uint32_t bound) {
    state = state * UINT64_C(6364136223846793005) + UINT64_C(1442695040888963407);
    return (uint32_t)((state >> 33) % bound);
}

/* The greatest memory that the process has had so far, in bytes. */
static double peak(void) {
    FILE *status = fopen("/proc/self/status", "r");
    char line[256];
    long kilobytes = -1;
    while (status && fgets(line, sizeof line, status))
        if (sscanf(line, "VmHWM: %ld kB", &kilobytes) == 1)
            break;
    if (status)
        fclose(status);
    return 1024.0 * (double)kilobytes;
}

/* Memory that has been written, so that it counts from now on. */
static void *taken(size_t bytes) {
    void *place = malloc(bytes ? bytes : 1);
    if (!place)
        exit(6);
    memset(place, 0, bytes ? bytes : 1);
    return place;
}

static int64_t cost_of(const char *shape, uint32_t person, uint32_t object) {
    return strcmp(shape, "products") ? 1 + (int64_t)drawn(10000) : (int64_t)(person + 1) * (object + 1);
}

/* Makes doubles of a table of whole numbers, where it is. */
static void make_doubles(void *table, size_t count, int64_t none) {
    for (size_t place = 0; place < count; place++) {
        int64_t whole;
        char *here = (char *)table + place * sizeof whole;
        memcpy(&whole, here, sizeof whole);
        double cost = whole == none ? INFINITY : (double)whole / 3;
        memcpy(here, &cost, sizeof cost);
    }
}

static int is_hole(const char *shape, uint32_t persons, uint32_t person, uint32_t object, uint32_t degree) {
    if (!strcmp(shape, "holes"))
        return person != object && drawn(degree) == 0;
    return !strcmp(shape, "crowd") && person <= persons / 2 && object >= persons / 2;
}

int main(int words, char **word) {
    if (words != 7)
        return 2;
    const char *call = word[1], *shape = word[2];
    uint32_t persons = (uint32_t)atoi(word[3]), objects = (uint32_t)atoi(word[4]), degree = (uint32_t)atoi(word[5]);
    uint64_t bids = strtoull(word[6], NULL, 10);
    int is_f64 = !strcmp(call, "f64"), is_match = !strcmp(call, "match");
    int is_dense = is_f64 || is_match || !strcmp(call, "dense"), is_full = !strcmp(shape, "products");
    int has_gaps = !strcmp(shape, "gaps");
    size_t count = is_dense || is_full ? (size_t)persons * objects : (size_t)persons * degree;
    size_t size = is_dense ? sizeof(int64_t) : sizeof(sigdorf_arc);
    void *given = taken(count * size);
    uint32_t *choice = taken(persons * sizeof *choice), *set = taken(persons * sizeof *set);
    int64_t *prices = taken(objects * sizeof *prices), none = INT64_MAX;
    for (size_t place = 0; is_dense && place < count; place++) {
        uint32_t person = (uint32_t)(place / objects), object = (uint32_t)(place % objects);
        int is_gap = has_gaps || is_hole(shape, persons, person, object, degree);
        ((int64_t *)given)[place] = is_gap ? none : cost_of(shape, person, object);
    }
    uint32_t width = is_full ? objects : degree;
    for (size_t place = 0; (!is_dense || has_gaps) && place < (size_t)persons * width; place++) {
        uint32_t person = (uint32_t)(place / width), column = (uint32_t)(place % width);
        uint32_t object = is_full ? column : column ? drawn(objects) : person;
        int64_t cost = cost_of(shape, person, object);
        if (is_dense)
            ((int64_t *)given)[(size_t)person * objects + object] = cost;
        else
            ((sigdorf_arc *)given)[place] = (sigdorf_arc){cost, person, object};
    }
    if (is_f64 || is_match)
        make_doubles(given, count, none);
    sigdorf_found found = {0};
    sigdorf_found_f64 found_f64 = {0};
    double before = peak(), gate = (is_full ? (double)persons * persons : 10000) / 30;
    int32_t status;
    bids = bids ? bids : SIGDORF_USUAL_BIDS;
    if (is_f64)
        status = sigdorf_solve_dense_f64(persons, objects, given, count, objects, bids, choice, persons, set, persons, &found_f64);
    else if (is_match)
        status = sigdorf_match(persons, objects, given, count, objects, gate, bids, choice, persons, &found_f64);
    else if (is_dense)
        status = sigdorf_solve_dense(persons, objects, given, count, objects, none, prices, 0, bids, choice, persons, prices, objects, set,
                                     persons, &found);
    else
        status = (strcmp(call, "messages") ? sigdorf_solve : sigdorf_solve_by_messages)(
            persons, objects, given, count, prices, 0, bids, choice, persons, prices, objects, set, persons, &found);
    double beside = (peak() - before) / (double)count;
    printf("%s %s %u %u: %zu, %zu bytes of yours, %.1f in all, %.3f beside, status %d\n", call, shape, persons, objects, count, size,
           (double)size + beside, beside / (double)size, (int)status);
    return 0;
}
