/* Compresses the input, shows how well, compares what comes back, and tries damaged texts. */
#include <stdio.h>
#include <stdlib.h>
#include <string.h>
#include "lzss.h"

static void read_all(struct buffer *to) {
    char piece[100];
    size_t n;
    while ((n = fread(piece, 1, sizeof piece, stdin)) > 0)
        for (size_t k = 0; k < n; k++)
            buffer_add(to, piece[k]);
}

static void dump(const struct buffer *it, size_t most) {
    for (size_t k = 0; k < it->length && k < most; k += 16) {
        printf("%04zx ", k);
        for (size_t i = k; i < k + 16 && i < it->length && i < most; i++)
            printf(" %02x", it->bytes[i]);
        printf("\n");
    }
}

/* How many texts with one wrong byte are refused or come back otherwise. */
static void damage(const struct buffer *packed, const struct buffer *whole) {
    int refused = 0, differ = 0, same = 0;
    for (size_t k = 0; k < packed->length; k += 7) {
        struct buffer back = {0};
        packed->bytes[k] ^= 0x55;
        if (!lzss_unpack(&back, packed->bytes, packed->length))
            refused++;
        else if (back.length == whole->length && memcmp(back.bytes, whole->bytes, back.length) == 0)
            same++;
        else
            differ++;
        packed->bytes[k] ^= 0x55;
        buffer_free(&back);
    }
    printf("damaged: %d refused, %d differ, %d the same\n", refused, differ, same);
}

int main(void) {
    struct buffer whole = {0}, packed = {0}, back = {0};
    read_all(&whole);
    lzss_pack(&packed, whole.bytes, whole.length);
    printf("%zu bytes become %zu, %zu per cent\n", whole.length, packed.length, whole.length ? 100 * packed.length / whole.length : 100);
    dump(&packed, 64);
    if (!lzss_unpack(&back, packed.bytes, packed.length)) {
        puts("refused");
        return 1;
    }
    printf("checksums %08x %08x %08x\n", (unsigned)checksum(whole.bytes, whole.length), (unsigned)checksum(packed.bytes, packed.length),
           (unsigned)checksum(back.bytes, back.length));
    int equal = back.length == whole.length && memcmp(back.bytes, whole.bytes, whole.length) == 0;
    puts(equal ? "equal" : "different");
    damage(&packed, &whole);
    buffer_free(&whole);
    buffer_free(&packed);
    buffer_free(&back);
    return equal ? EXIT_SUCCESS : EXIT_FAILURE;
}
