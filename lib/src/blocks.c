/* Blocks that know their size, for programs that use realloc: in these from-c has all calls of malloc, calloc and free go
   here. The size stands in front of a block, in as much room as keeps its alignment. */
#include <stdint.h>
#include <stdlib.h>
#include <string.h>

/* from-c tells these three by their names, so they stay functions. */
#define ALONE __attribute__((noinline))

enum { FRONT = 16 };

static size_t *size_of(void *block) { return (size_t *)((char *)block - FRONT); }

ALONE void *__sized_malloc(size_t n) {
    char *whole = n <= SIZE_MAX - FRONT ? malloc(n + FRONT) : NULL;
    if (!whole)
        return NULL;
    *size_of(whole + FRONT) = n;
    return whole + FRONT;
}

ALONE void *__sized_calloc(size_t count, size_t n) {
    if (n > 0 && count > (SIZE_MAX - FRONT) / n)
        return NULL;
    char *whole = calloc(count * n + FRONT, 1);
    if (!whole)
        return NULL;
    *size_of(whole + FRONT) = count * n;
    return whole + FRONT;
}

ALONE void __sized_free(void *block) {
    if (block)
        free((char *)block - FRONT);
}

void *realloc(void *block, size_t n) {
    if (!block)
        return __sized_malloc(n);
    if (n == 0) {
        __sized_free(block);
        return NULL;
    }
    void *moved = __sized_malloc(n);
    if (!moved)
        return NULL;
    memcpy(moved, block, *size_of(block) < n ? *size_of(block) : n);
    __sized_free(block);
    return moved;
}

void *reallocarray(void *block, size_t count, size_t n) {
    return n > 0 && count > SIZE_MAX / n ? NULL : realloc(block, count * n);
}
