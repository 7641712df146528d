/* A large table under a tenth of a second, and then until another thread ends the search. */
#include "sigdorf.h"
#include <pthread.h>
#include <stdio.h>
#include <stdlib.h>
#include <unistd.h>

enum { SIDE = 3000 };

static int64_t *costs, *prices;
static uint32_t *choice, *hall_objects;

static void solve(const char *by, sigdorf_watch watch) {
    sigdorf_found found = {0};
    int32_t status = sigdorf_solve_dense_watched(SIDE, SIDE, costs, SIDE * SIDE, SIDE, INT64_MAX, NULL, 0, SIGDORF_USUAL_BIDS,
                                                 &watch, choice, SIDE, prices, SIDE, hall_objects, SIDE, &found);
    printf("%s: status %d, stopped %u\n", by, (int)status, (unsigned)watch.stopped);
}

static void *end_it(void *descriptor) {
    usleep(100000);
    if (write(*(int *)descriptor, "", 1) != 1) perror("write");
    return NULL;
}

int main(void) {
    costs = malloc(SIDE * SIDE * sizeof *costs), prices = calloc(SIDE, sizeof *prices);
    choice = calloc(SIDE, sizeof *choice), hall_objects = calloc(SIDE, sizeof *hall_objects);
    int ends[2];
    pthread_t other;
    if (!costs || !prices || !choice || !hall_objects || pipe(ends)) return 1;
    /* Everybody wants the first objects most, so that it takes long. */
    for (int64_t e = 0; e < SIDE * SIDE; e++) costs[e] = (e / SIDE + 1) * (e % SIDE + 1);
    solve("by the clock", (sigdorf_watch){.until = sigdorf_until(0.1), .stop = -1, .progress = -1});
    if (pthread_create(&other, NULL, end_it, &ends[1])) return 1;
    solve("by a thread", (sigdorf_watch){.stop = ends[0], .progress = -1});
    pthread_join(other, NULL);
    free(costs), free(prices), free(choice), free(hall_objects);
    return 0;
}
