/* The watch of a job: the library asks it within a search, and these parts between searches. */
#define _POSIX_C_SOURCE 200809L
#include <poll.h>
#include <time.h>
#include <unistd.h>

#include "levels.h"

_Static_assert(sizeof(scale) == sizeof(sigdorf_progress) && offsetof(scale, known) == offsetof(sigdorf_progress, known),
               "a scale stands in the place of a record");

/* Writes what the records of a search count: 0 where it isn't taken, and then they can't be read. */
static int tell_scale(const job *w, int progress) {
    scale told = {.least = w->least,
                  .unit = w->unit,
                  .spare = w->spare,
                  .gate = w->gate_cost ? w->gate : 0,
                  .gate_cost = w->gate_cost,
                  .flags = (w->has_tails ? HAS_TAILS : 0) | (w->is_small ? IS_SMALL : 0),
                  .known = SCALE};
    if (w->q.type != 'd') {
        uint64_t bits = w->sign < 0 ? ~w->least_key : w->least_key;
        told.least = (int64_t)(w->q.type == 'q' ? bits ^ UINT64_C(1) << 63 : bits);
        told.flags |= IS_WHOLE | (w->q.type == 'Q' ? IS_UNSIGNED : 0);
    }
    return write(progress, &told, sizeof told) == sizeof told;
}

sigdorf_watch watch_of(const job *w, int tells) {
    sigdorf_watch own = {0, -1, -1, 0, 0};
    if (!w->q.watch) return own;
    own.until = w->q.watch->until, own.stop = w->q.watch->stop;
    if (tells && w->q.watch->progress >= 0 && tell_scale(w, w->q.watch->progress)) own.progress = w->q.watch->progress;
    return own;
}

void take_watch(job *w, const sigdorf_watch *own) {
    if (!w->q.watch) return;
    w->q.watch->stopped |= own->stopped;
    w->q.watch->asked += own->asked;
}

/* Whether a time of CLOCK_MONOTONIC has come. */
static int has_come(int64_t time) {
    struct timespec now;
    return clock_gettime(CLOCK_MONOTONIC, &now) == 0 && (int64_t)now.tv_sec * 1000000000 + now.tv_nsec >= time;
}

static int has_word(int stop) {
    struct pollfd one = {stop, POLLIN, 0};
    return poll(&one, 1, 0) > 0 && (one.revents & POLLIN);
}

int is_over(job *w) {
    sigdorf_watch *watch = w->q.watch;
    if (!watch) return 0;
    if ((watch->until && has_come(watch->until)) || (watch->stop >= 0 && has_word(watch->stop))) watch->stopped = 1;
    return watch->stopped != 0;
}
