// Refuses growths of memory: a library that is loaded before a program, in place of the C library's malloc, calloc and realloc.
//
// REFUSE=N in the environment refuses the N-th growth, counted from 1; 0 refuses none. Where COUNT_FROM=start is there, growths count from the start of
// the program on, else from the moment at which a block of MARK_ONE bytes is taken until it is given back. At its end the program adds to the file that TOLD names a line with the number of growths that counted, and of those that were refused.
#include <errno.h>
#include <fcntl.h>
#include <stdatomic.h>
#include <stdio.h>
#include <stdlib.h>
#include <string.h>
#include <sys/syscall.h>
#include <unistd.h>

// The size that `memory_tests` asks for, in its file `marks.rt`.
#define MARK_ONE 7654321

void *__libc_malloc(size_t);
void *__libc_calloc(size_t, size_t);
void *__libc_realloc(void *, size_t);
void __libc_free(void *);

static long refused_number;
static atomic_long counted, refused;
static _Atomic(void *) mark_one;
static int counts_from_start, is_ready;

__attribute__((constructor)) static void begin(void)
{
    const char *number = getenv("REFUSE"), *from = getenv("COUNT_FROM");
    refused_number = number ? atol(number) : 0;
    counts_from_start = from != NULL && strcmp(from, "start") == 0;
    is_ready = 1;
}

// Tells what was counted. A program may end by `exit` or by `_exit`.
static void tell(void)
{
    const char *name = getenv("TOLD");
    char line[80];
    int file = name ? open(name, O_WRONLY | O_APPEND | O_CREAT, 0600) : -1;
    is_ready = 0;
    if (file >= 0) {
        int length = snprintf(line, sizeof line, "%ld %ld\n", (long)counted, (long)refused);
        if (write(file, line, length) != length)
            abort();
        close(file);
    }
}

__attribute__((destructor)) static void end(void)
{
    tell();
}

void _exit(int status)
{
    tell();
    for (;;)
        syscall(SYS_exit_group, status);
}

static int is_refused(void)
{
    if (!is_ready)
        return 0;
    if ((!counts_from_start && mark_one == NULL) || ++counted != refused_number)
        return 0;
    refused++;
    errno = ENOMEM;
    return 1;
}

void *malloc(size_t size)
{
    if (is_refused())
        return NULL;
    void *block = __libc_malloc(size);
    if (size == MARK_ONE)
        mark_one = block;
    return block;
}

void *calloc(size_t many, size_t size)
{
    return is_refused() ? NULL : __libc_calloc(many, size);
}

void *realloc(void *block, size_t size)
{
    return is_refused() ? NULL : __libc_realloc(block, size);
}

void free(void *block)
{
    if (block != NULL && block == mark_one)
        mark_one = NULL;
    __libc_free(block);
}
