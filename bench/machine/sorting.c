/* qsort of 50,000 numbers through a pointer to a function. */
#include <stdio.h>
#include <stdlib.h>

static unsigned numbers[50000];

static int order(const void *a, const void *b) {
    unsigned x = *(const unsigned *)a, y = *(const unsigned *)b;
    return x < y ? -1 : x > y;
}

int main(void) {
    unsigned x = 7;
    for (int k = 0; k < 50000; k++)
        numbers[k] = x = x * 1664525 + 1013904223;
    qsort(numbers, 50000, sizeof *numbers, order);
    putchar('a' + (int)(numbers[25000] % 26));
    return 0;
}
