/* Finds repetitions by chains of places whose first three bytes have one hash. */
#include <assert.h>
#include <string.h>
#include "lzss.h"
#include "format.h"

enum { HASHES = 1024, NONE = -1, TRIES = 48 };

struct packer {
    const uint8_t *from;
    size_t n;
    /* The last place of each hash, and for each place the one before it with the same hash. */
    int32_t last[HASHES];
    int32_t before[WINDOW];
    /* Eight items share a byte of flags. */
    struct buffer *to;
    size_t flags;
    int used;
};

static unsigned hash(const uint8_t *at) {
    uint32_t x = at[0] | (uint32_t)at[1] << 8 | (uint32_t)at[2] << 16;
    return x * 2654435761u >> 22;
}

static void remember(struct packer *it, size_t place) {
    if (place + LEAST > it->n)
        return;
    unsigned h = hash(it->from + place);
    it->before[place % WINDOW] = it->last[h];
    it->last[h] = (int32_t)place;
}

static size_t common(const uint8_t *a, const uint8_t *b, size_t most) {
    size_t k = 0;
    while (k < most && a[k] == b[k])
        k++;
    return k;
}

/* The longest repetition at a place: its length, with its distance. */
static size_t longest(const struct packer *it, size_t place, size_t *distance) {
    size_t best = 0, most = it->n - place < MOST ? it->n - place : MOST;
    if (most < LEAST)
        return 0;
    int32_t at = it->last[hash(it->from + place)];
    for (int tries = 0; at != NONE && place - at < WINDOW && tries < TRIES; tries++) {
        size_t length = common(it->from + at, it->from + place, most);
        if (length > best) {
            best = length;
            *distance = place - at;
        }
        at = it->before[at % WINDOW];
    }
    return best >= LEAST ? best : 0;
}

static void flag(struct packer *it, int reference) {
    if (it->used == 8) {
        it->flags = it->to->length;
        it->used = 0;
        buffer_add(it->to, 0);
    }
    it->to->bytes[it->flags] |= reference << it->used++;
}

void lzss_pack(struct buffer *to, const uint8_t *from, size_t n) {
    static struct packer it;
    memset(&it, 0, sizeof it);
    for (int k = 0; k < HASHES; k++)
        it.last[k] = NONE;
    it.from = from, it.n = n, it.to = to, it.used = 8;
    for (size_t place = 0; place < n;) {
        size_t distance = 0, length = longest(&it, place, &distance);
        flag(&it, length > 0);
        if (length == 0) {
            buffer_add(to, from[place]);
            length = 1;
        } else {
            assert(distance > 0 && distance < WINDOW && length <= MOST);
            buffer_add(to, distance & 0xFF);
            buffer_add(to, (distance >> 8) << 4 | (length - LEAST));
        }
        while (length-- > 0)
            remember(&it, place++);
    }
}
