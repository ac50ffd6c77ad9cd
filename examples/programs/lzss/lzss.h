/* A compressor of the family of Lempel, Ziv, Storer and Szymanski: bytes, and references into the last 4,096 bytes. */
#ifndef LZSS_H
#define LZSS_H

#include <stddef.h>
#include <stdint.h>

/* Bytes that grow. */
struct buffer {
    uint8_t *bytes;
    size_t length, room;
};

void buffer_add(struct buffer *it, uint8_t byte);
void buffer_free(struct buffer *it);

/* Adds the compressed form of n bytes to the buffer. */
void lzss_pack(struct buffer *to, const uint8_t *from, size_t n);

/* Adds what n compressed bytes stand for; gives 0 where they are damaged. */
int lzss_unpack(struct buffer *to, const uint8_t *from, size_t n);

uint32_t checksum(const uint8_t *from, size_t n);

#endif
