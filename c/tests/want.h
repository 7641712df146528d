/* What a test counts: each number that it got, beside the one that is wanted. */
#ifndef WANT_H
#define WANT_H

#include <inttypes.h>
#include <stdint.h>
#include <stdio.h>

static int passed, failed;

static void want(const char *what, int64_t got, int64_t wanted) {
    if (got == wanted) {
        passed++;
        return;
    }
    failed++;
    printf("FAILED %s: %" PRId64 " in place of %" PRId64 "\n", what, got, wanted);
}

#endif
