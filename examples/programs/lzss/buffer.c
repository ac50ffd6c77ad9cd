/* Bytes that grow, and their check sum. */
#include <stdio.h>
#include <stdlib.h>
#include "lzss.h"

void buffer_add(struct buffer *it, uint8_t byte) {
    if (it->length == it->room) {
        it->room = it->room ? 2 * it->room : 64;
        uint8_t *moved = realloc(it->bytes, it->room);
        if (moved == NULL) {
            fprintf(stderr, "out of memory\n");
            exit(2);
        }
        it->bytes = moved;
    }
    it->bytes[it->length++] = byte;
}

void buffer_free(struct buffer *it) {
    free(it->bytes);
    it->bytes = NULL;
    it->length = it->room = 0;
}

uint32_t checksum(const uint8_t *from, size_t n) {
    uint32_t a = 1, b = 0;
    for (size_t k = 0; k < n; k++) {
        a = (a + from[k]) % 65521;
        b = (b + a) % 65521;
    }
    return b << 16 | a;
}
