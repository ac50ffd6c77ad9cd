/* Sorting and searching. */
#include <stdint.h>
#include <stdlib.h>
#include <string.h>

typedef int compare_function(const void *, const void *);

void *bsearch(const void *key, const void *base, size_t count, size_t size, compare_function *compare) {
    size_t low = 0, high = count;
    while (low < high) {
        size_t middle = (low + high) / 2;
        const char *at = (const char *)base + middle * size;
        int order = compare(key, at);
        if (order == 0)
            return (void *)at;
        if (order < 0)
            high = middle;
        else
            low = middle + 1;
    }
    return NULL;
}

static void swap(char *a, char *b, size_t size) {
    while (size-- > 0) {
        char c = *a;
        *a++ = *b;
        *b++ = c;
    }
}

/* Puts an element of a heap in its place below. */
static void sink(char *base, size_t at, size_t count, size_t size, compare_function *compare) {
    for (size_t child; (child = 2 * at + 1) < count; at = child) {
        if (child + 1 < count && compare(base + child * size, base + (child + 1) * size) < 0)
            child++;
        if (compare(base + at * size, base + child * size) >= 0)
            return;
        swap(base + at * size, base + child * size, size);
    }
}

static void heap_sort(char *base, size_t count, size_t size, compare_function *compare) {
    for (size_t k = count / 2; k-- > 0;)
        sink(base, k, count, size, compare);
    for (size_t k = count; k-- > 1;) {
        swap(base, base + k * size, size);
        sink(base, 0, k, size, compare);
    }
}

/* Merges two sorted runs, of which the first lies in `room` and the second behind the place for all. */
static void merge(char *to, const char *a, size_t left, const char *b, size_t right, size_t size, compare_function *compare) {
    while (left > 0 && right > 0) {
        if (compare(a, b) <= 0) {
            memcpy(to, a, size);
            a += size, left--;
        } else {
            memcpy(to, b, size);
            b += size, right--;
        }
        to += size;
    }
    memcpy(to, a, left * size);
}

static void merge_sort(char *base, size_t count, size_t size, compare_function *compare, char *room) {
    size_t half = count / 2;
    if (count < 2)
        return;
    merge_sort(base, half, size, compare, room);
    merge_sort(base + half * size, count - half, size, compare, room);
    memcpy(room, base, half * size);
    merge(base, room, half, base + half * size, count - half, size, compare);
}

/* Elements that compare equal keep their order, where there is memory for half of them. */
void qsort(void *base, size_t count, size_t size, compare_function *compare) {
    if (count < 2 || size == 0)
        return;
    char *room = malloc(count / 2 * size);
    if (!room) {
        heap_sort(base, count, size, compare);
        return;
    }
    merge_sort(base, count, size, compare, room);
    free(room);
}
