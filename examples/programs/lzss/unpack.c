/* Reads flags, bytes and references back. */
#include "lzss.h"
#include "format.h"

int lzss_unpack(struct buffer *to, const uint8_t *from, size_t n) {
    size_t at = 0, begin = to->length;
    while (at < n) {
        uint8_t flags = from[at++];
        for (int k = 0; k < 8 && at < n; k++) {
            if (!(flags >> k & 1)) {
                buffer_add(to, from[at++]);
                continue;
            }
            if (n - at < 2)
                return 0;
            size_t distance = from[at] | (size_t)(from[at + 1] >> 4) << 8, length = (from[at + 1] & 15) + LEAST;
            at += 2;
            if (distance == 0 || distance > to->length - begin)
                return 0;
            while (length-- > 0)
                buffer_add(to, to->bytes[to->length - distance]);
        }
    }
    return 1;
}
