/* Bits, and texts as bits. */
#include <stdlib.h>
#include "huffman.h"

static void put(struct bits *it, unsigned bit) {
    if (it->count == 8 * it->room) {
        size_t room = it->room ? 2 * it->room : 32;
        uint8_t *bytes = realloc(it->bytes, room);
        if (!bytes)
            abort();
        for (size_t k = it->room; k < room; k++)
            bytes[k] = 0;
        it->bytes = bytes;
        it->room = room;
    }
    it->bytes[it->count / 8] |= bit << (7 - it->count % 8);
    it->count++;
}

void bits_put(struct bits *it, uint32_t word, unsigned count) {
    while (count-- > 0)
        put(it, word >> count & 1);
}

/* The next bit, or -1 at the end. */
int bits_take(struct bits *it) {
    if (it->at == it->count)
        return -1;
    int bit = it->bytes[it->at / 8] >> (7 - it->at % 8) & 1;
    it->at++;
    return bit;
}

void encode(struct bits *to, const struct code *by, const uint8_t *from, size_t n) {
    for (size_t k = 0; k < n; k++)
        bits_put(to, by->bits[from[k]], by->length[from[k]]);
}

/* Reads a symbol bit by bit: the codes of a length begin where those before them, doubled, end. */
static int symbol(const struct code *by, struct bits *from) {
    uint32_t word = 0;
    for (unsigned length = 1; length <= LONGEST; length++) {
        int bit = bits_take(from);
        if (bit < 0)
            return -1;
        word = word << 1 | (unsigned)bit;
        for (int s = 0; s < SYMBOLS; s++)
            if (by->length[s] == length && by->bits[s] == word)
                return s;
    }
    return -1;
}

size_t decode(uint8_t *to, size_t most, const struct code *by, struct bits *from) {
    size_t n = 0;
    for (int s; n < most && (s = symbol(by, from)) >= 0; n++)
        to[n] = (uint8_t)s;
    return n;
}
