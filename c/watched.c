/* The calls under a watch: what a caller watches by becomes what the proved calls read. Not proved. */
#define _GNU_SOURCE
#include <fcntl.h>
#include <sys/timerfd.h>
#include <time.h>
#include <unistd.h>

#include "nulls.h"
#include "sigdorf.h"

#define NANOSECONDS 1000000000

/* What the proved calls watch by: crates/sigdorf_c has it as Watching. They read from descriptors, and look at no clock. */
typedef struct {
    int32_t timer, stop, progress;
    uint32_t stopped, asked;
} lookout;

int32_t sigdorf_solve_by_watch(uint32_t, uint32_t, const sigdorf_arc *, size_t, const int64_t *, size_t, uint64_t, lookout *,
                               uint32_t *, size_t, int64_t *, size_t, uint32_t *, size_t, sigdorf_found *);
int32_t sigdorf_solve_dense_by_watch(uint32_t, uint32_t, const int64_t *, size_t, size_t, int64_t, const int64_t *, size_t, uint64_t,
                                     lookout *, uint32_t *, size_t, int64_t *, size_t, uint32_t *, size_t, sigdorf_found *);

int64_t sigdorf_until(double seconds) {
    struct timespec now;
    clock_gettime(CLOCK_MONOTONIC, &now);
    int64_t from = (int64_t)now.tv_sec * NANOSECONDS + now.tv_nsec;
    if (!(seconds > 0)) return from;
    /* The clock is far below 2^62. */
    double more = seconds * NANOSECONDS;
    return more < 0x1p62 ? from + (int64_t)more : INT64_MAX;
}

/* A timer that can be read from this time on, or -1 where the system has none left. */
static int timer_at(int64_t until) {
    if (until < 1) until = 1;
    struct itimerspec at = {.it_value = {.tv_sec = until / NANOSECONDS, .tv_nsec = until % NANOSECONDS}};
    int timer = timerfd_create(CLOCK_MONOTONIC, TFD_NONBLOCK | TFD_CLOEXEC);
    if (timer >= 0 && timerfd_settime(timer, TFD_TIMER_ABSTIME, &at, NULL)) {
        close(timer);
        return -1;
    }
    return timer;
}

/* Begins to watch: 0, or a status. */
static int32_t begin(lookout *own, sigdorf_watch *watch) {
    *own = (lookout){-1, watch->stop, watch->progress, 0, 0};
    watch->stopped = watch->asked = 0;
    if (watch->until && (own->timer = timer_at(watch->until)) < 0) return SIGDORF_MEMORY;
    /* One that blocks would stop the search for good. */
    int flags = own->stop < 0 ? O_NONBLOCK : fcntl(own->stop, F_GETFL);
    if (flags >= 0 && !(flags & O_NONBLOCK)) fcntl(own->stop, F_SETFL, flags | O_NONBLOCK);
    return 0;
}

static int32_t end(const lookout *own, sigdorf_watch *watch, int32_t status) {
    if (own->timer >= 0) close(own->timer);
    watch->stopped = own->stopped, watch->asked = own->asked;
    return status;
}

int32_t sigdorf_solve_watched(uint32_t persons, uint32_t objects, const sigdorf_arc *arcs, size_t arcs_len, const int64_t *start,
                              size_t start_len, uint64_t bids, sigdorf_watch *watch, uint32_t *choice, size_t choice_len, int64_t *prices,
                              size_t prices_len, uint32_t *hall_objects, size_t hall_objects_len, sigdorf_found *found) {
    lookout own;
    int32_t status = begin(&own, watch);
    if (status) return status;
    return end(&own, watch,
               sigdorf_solve_by_watch(persons, objects, GIVEN(arcs, arcs_len), GIVEN(start, start_len), bids, &own,
                                      GIVEN(choice, choice_len), GIVEN(prices, prices_len),
                                      GIVEN(hall_objects, hall_objects_len), found));
}

int32_t sigdorf_solve_dense_watched(uint32_t persons, uint32_t objects, const int64_t *costs, size_t costs_len, size_t stride, int64_t none,
                                    const int64_t *start, size_t start_len, uint64_t bids, sigdorf_watch *watch, uint32_t *choice,
                                    size_t choice_len, int64_t *prices, size_t prices_len, uint32_t *hall_objects, size_t hall_objects_len,
                                    sigdorf_found *found) {
    lookout own;
    int32_t status = begin(&own, watch);
    if (status) return status;
    return end(&own, watch,
               sigdorf_solve_dense_by_watch(persons, objects, GIVEN(costs, costs_len), stride, none,
                                            GIVEN(start, start_len), bids, &own, GIVEN(choice, choice_len),
                                            GIVEN(prices, prices_len), GIVEN(hall_objects, hall_objects_len), found));
}
