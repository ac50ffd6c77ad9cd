/* Canonical Huffman codes of bytes. */
#ifndef HUFFMAN_H
#define HUFFMAN_H

#include <stdbool.h>
#include <stddef.h>
#include <stdint.h>

enum { SYMBOLS = 256, LONGEST = 32 };

/* The length of each symbol's code, 0 where it has none, and the codes in order of length, then of symbol. */
struct code {
    uint8_t length[SYMBOLS];
    uint32_t bits[SYMBOLS];
};

bool code_from_counts(struct code *to, const uint32_t counts[SYMBOLS]);

/* Bits in a growing block, the first in the highest place. */
struct bits {
    uint8_t *bytes;
    size_t count, room, at;
};

void bits_put(struct bits *it, uint32_t word, unsigned count);
int bits_take(struct bits *it);

void encode(struct bits *to, const struct code *by, const uint8_t *from, size_t n);
size_t decode(uint8_t *to, size_t most, const struct code *by, struct bits *from);

#endif
