/* qsort, bsearch and realloc. */
#include <stdlib.h>
#include <string.h>
#include "check.h"

enum { MOST = 60 };

struct pair {
    unsigned char key, place;
    short more;
};

static unsigned compared;

static int by_key(const void *a, const void *b) {
    compared++;
    return ((const struct pair *)a)->key - ((const struct pair *)b)->key;
}

static int by_number(const void *a, const void *b) {
    int x = *(const int *)a, y = *(const int *)b;
    return (x > y) - (x < y);
}

static int backwards(const void *a, const void *b) { return by_number(b, a); }
static int by_text(const void *a, const void *b) { return strcmp(a, b); }

/* Equal keys keep their order here as in the GNU library, so that the places show it. */
static void sorts(void) {
    for (int round = 0; round < 1100; round++) {
        struct pair pairs[MOST];
        int numbers[MOST];
        char texts[MOST][7];
        unsigned n = draw(MOST);
        for (unsigned k = 0; k < n; k++) {
            pairs[k].key = (unsigned char)draw(10), pairs[k].place = (unsigned char)k, pairs[k].more = 7;
            numbers[k] = draw(3) ? (int)draw(100) - 50 : (int)draw(1u << 31);
            for (int i = 0; i < 6; i++)
                texts[k][i] = (char)('a' + draw(3));
            texts[k][draw(7)] = 0;
            texts[k][6] = 0;
        }
        qsort(pairs, n, sizeof *pairs, by_key);
        called(n);
        for (unsigned k = 0; k < n; k++)
            note(pairs[k].key), note(pairs[k].place);
        qsort(numbers, n, sizeof *numbers, draw(2) ? by_number : backwards);
        for (unsigned k = 0; k < n; k++)
            note(numbers[k]);
        qsort(texts, n, sizeof *texts, by_text);
        for (unsigned k = 0; k < n; k++)
            note_bytes(texts[k], (unsigned)strlen(texts[k]));
    }
    report("qsort");
}

static void searches(void) {
    for (int round = 0; round < 1100; round++) {
        int numbers[MOST];
        unsigned n = draw(MOST);
        for (unsigned k = 0; k < n; k++)
            numbers[k] = (int)draw(80);
        qsort(numbers, n, sizeof *numbers, by_number);
        for (int k = 0; k < 4; k++) {
            int key = (int)draw(84) - 2;
            int *found = bsearch(&key, numbers, n, sizeof *numbers, by_number);
            called(found ? found - numbers : -1);
        }
    }
    report("bsearch");
}

static void blocks(void) {
    unsigned char *kept[24] = {NULL};
    unsigned sizes[24] = {0};
    for (int round = 0; round < 4000; round++) {
        unsigned k = draw(24), n = draw(6) ? 1 + draw(300) : 1;
        if (draw(10) == 0) {
            free(kept[k]);
            kept[k] = NULL;
            sizes[k] = 0;
            continue;
        }
        if (!kept[k] && draw(2)) {
            kept[k] = draw(2) ? calloc(n, 1) : memset(malloc(n), 0, n);
            sizes[k] = n;
        }
        kept[k] = realloc(kept[k], n);
        unsigned same = sizes[k] < n ? sizes[k] : n;
        called(kept[k] != NULL);
        note_bytes(kept[k], same);
        for (unsigned i = same; i < n; i++)
            kept[k][i] = (unsigned char)draw(256);
        sizes[k] = n;
    }
    for (int k = 0; k < 24; k++)
        free(kept[k]);
    report("realloc");
}

/* Blocks that are never moved, each filled and read again after others came and went. */
static void fresh_blocks(void) {
    unsigned char *kept[64] = {NULL};
    unsigned sizes[64] = {0};
    for (int round = 0; round < 6000; round++) {
        unsigned k = draw(64), n = draw(8) ? 1 + draw(200) : 0;
        note_bytes(kept[k], sizes[k]);
        free(kept[k]);
        kept[k] = round % 3 == 0 ? malloc(n + 1) : round % 3 == 1 ? calloc(n, draw(2) ? 1 : 2) : reallocarray(NULL, n + 1, 2);
        called(n == 0 || kept[k] != NULL);
        sizes[k] = n;
        if (round % 3 == 1)
            note_bytes(kept[k], n);
        for (unsigned i = 0; i < n; i++)
            kept[k][i] = (unsigned char)draw(256);
    }
    for (int k = 0; k < 64; k++)
        free(kept[k]);
    report("malloc");
}

int main(void) {
    fresh_blocks();
    sorts();
    searches();
    blocks();
    return compared > 0 ? 0 : 1;
}
