/* Codes the input: the table of codes, the bits in all, and a check that they can be read back. */
#include <ctype.h>
#include <stdio.h>
#include <stdlib.h>
#include <string.h>
#include "huffman.h"

static uint8_t text[4000];

static void show_symbol(int s) {
    if (isprint(s) && s != ' ')
        printf("%c   ", s);
    else if (s == '\n')
        printf("\\n  ");
    else
        printf("x%02X ", (unsigned)s);
}

static void show_code(const struct code *it, const uint32_t counts[SYMBOLS], int s) {
    char word[LONGEST + 1];
    for (unsigned k = 0; k < it->length[s]; k++)
        word[k] = it->bits[s] >> (it->length[s] - 1 - k) & 1 ? '1' : '0';
    word[it->length[s]] = 0;
    show_symbol(s);
    printf("%5u  %-16s %2u bits\n", (unsigned)counts[s], word, it->length[s]);
}

static const uint8_t *lengths;

static int by_length(const void *a, const void *b) {
    int s = *(const int *)a, t = *(const int *)b;
    return lengths[s] != lengths[t] ? lengths[s] - lengths[t] : s - t;
}

int main(void) {
    size_t n = fread(text, 1, sizeof text, stdin);
    uint32_t counts[SYMBOLS] = {0};
    for (size_t k = 0; k < n; k++)
        counts[text[k]]++;
    static struct code code;
    if (!code_from_counts(&code, counts)) {
        puts("nothing to code");
        return 1;
    }
    int order[SYMBOLS], used = 0;
    for (int s = 0; s < SYMBOLS; s++)
        if (counts[s])
            order[used++] = s;
    lengths = code.length;
    qsort(order, used, sizeof *order, by_length);
    for (int k = 0; k < used; k++)
        show_code(&code, counts, order[k]);

    struct bits bits = {0};
    encode(&bits, &code, text, n);
    printf("%zu bytes, %d symbols, %zu bits, %zu.%02zu bits a byte\n", n, used, bits.count, bits.count / n, bits.count % n * 100 / n);
    printf("begins");
    for (size_t k = 0; k < 8 && k * 8 < bits.count; k++)
        printf(" %02x", bits.bytes[k]);
    printf("\n");
    uint8_t *back = malloc(n);
    if (!back)
        return 2;
    size_t m = decode(back, n, &code, &bits);
    int equal = m == n && memcmp(back, text, n) == 0 && bits_take(&bits) < 0;
    puts(equal ? "read back" : "damaged");
    free(back);
    free(bits.bytes);
    return equal ? used : 1;
}
