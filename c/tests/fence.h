/* Memory that ends right before a page that nobody may touch, so that a read or a write beyond it ends the program. */
#ifndef FENCE_H
#define FENCE_H

#include <stdio.h>
#include <stdlib.h>
#include <sys/mman.h>
#include <unistd.h>

enum { ROOM = 1 << 14 };

/* Memory that ends where this many bytes of it end. */
typedef struct fence {
    unsigned char *end;
} fence;

static fence fence_new(void) {
    size_t page = (size_t)sysconf(_SC_PAGESIZE), room = (ROOM + page - 1) / page * page;
    unsigned char *memory = mmap(NULL, room + page, PROT_READ | PROT_WRITE, MAP_PRIVATE | MAP_ANONYMOUS, -1, 0);
    if (memory == MAP_FAILED || mprotect(memory + room, page, PROT_NONE) != 0) {
        printf("no memory for a fence\n0 passed, 1 failed\n");
        exit(1);
    }
    return (fence){memory + room};
}

static void *before(fence f, size_t bytes) { return f.end - bytes; }

#endif
