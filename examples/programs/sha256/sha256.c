/* SHA-256 of each line of the input, of all of it, and the authentication code of all under a key (FIPS 180-4, RFC 2104). */
#include <stdint.h>
#include <stdio.h>
#include <string.h>

struct sha256 {
    uint32_t state[8];
    uint64_t length;
    uint8_t block[64];
    unsigned used;
};

static const uint32_t constants[64] = {
    0x428a2f98, 0x71374491, 0xb5c0fbcf, 0xe9b5dba5, 0x3956c25b, 0x59f111f1, 0x923f82a4, 0xab1c5ed5, 0xd807aa98, 0x12835b01, 0x243185be,
    0x550c7dc3, 0x72be5d74, 0x80deb1fe, 0x9bdc06a7, 0xc19bf174, 0xe49b69c1, 0xefbe4786, 0x0fc19dc6, 0x240ca1cc, 0x2de92c6f, 0x4a7484aa,
    0x5cb0a9dc, 0x76f988da, 0x983e5152, 0xa831c66d, 0xb00327c8, 0xbf597fc7, 0xc6e00bf3, 0xd5a79147, 0x06ca6351, 0x14292967, 0x27b70a85,
    0x2e1b2138, 0x4d2c6dfc, 0x53380d13, 0x650a7354, 0x766a0abb, 0x81c2c92e, 0x92722c85, 0xa2bfe8a1, 0xa81a664b, 0xc24b8b70, 0xc76c51a3,
    0xd192e819, 0xd6990624, 0xf40e3585, 0x106aa070, 0x19a4c116, 0x1e376c08, 0x2748774c, 0x34b0bcb5, 0x391c0cb3, 0x4ed8aa4a, 0x5b9cca4f,
    0x682e6ff3, 0x748f82ee, 0x78a5636f, 0x84c87814, 0x8cc70208, 0x90befffa, 0xa4506ceb, 0xbef9a3f7, 0xc67178f2,
};

static uint32_t turned(uint32_t x, int n) { return x >> n | x << (32 - n); }

static uint32_t word_at(const uint8_t *at) {
    return (uint32_t)at[0] << 24 | (uint32_t)at[1] << 16 | (uint32_t)at[2] << 8 | at[3];
}

static void compress(uint32_t state[8], const uint8_t block[64]) {
    uint32_t w[64], s[8];
    for (int k = 0; k < 16; k++)
        w[k] = word_at(block + 4 * k);
    for (int k = 16; k < 64; k++) {
        uint32_t a = w[k - 15], b = w[k - 2];
        w[k] = w[k - 16] + (turned(a, 7) ^ turned(a, 18) ^ a >> 3) + w[k - 7] + (turned(b, 17) ^ turned(b, 19) ^ b >> 10);
    }
    memcpy(s, state, sizeof s);
    for (int k = 0; k < 64; k++) {
        uint32_t mixed = (s[4] & s[5]) ^ (~s[4] & s[6]), most = (s[0] & s[1]) ^ (s[0] & s[2]) ^ (s[1] & s[2]);
        uint32_t one = s[7] + (turned(s[4], 6) ^ turned(s[4], 11) ^ turned(s[4], 25)) + mixed + constants[k] + w[k];
        uint32_t two = (turned(s[0], 2) ^ turned(s[0], 13) ^ turned(s[0], 22)) + most;
        memmove(s + 1, s, 7 * sizeof *s);
        s[4] += one;
        s[0] = one + two;
    }
    for (int k = 0; k < 8; k++)
        state[k] += s[k];
}

static void begin(struct sha256 *it) {
    static const uint32_t first[8] = {0x6a09e667, 0xbb67ae85, 0x3c6ef372, 0xa54ff53a, 0x510e527f, 0x9b05688c, 0x1f83d9ab, 0x5be0cd19};
    memcpy(it->state, first, sizeof first);
    it->length = 0;
    it->used = 0;
}

static void add(struct sha256 *it, const void *from, size_t n) {
    const uint8_t *at = from;
    it->length += n;
    while (n > 0) {
        size_t piece = sizeof it->block - it->used < n ? sizeof it->block - it->used : n;
        memcpy(it->block + it->used, at, piece);
        it->used += piece, at += piece, n -= piece;
        if (it->used == sizeof it->block) {
            compress(it->state, it->block);
            it->used = 0;
        }
    }
}

static void end(struct sha256 *it, uint8_t digest[32]) {
    uint64_t bits = it->length * 8;
    uint8_t tail[8];
    add(it, "\x80", 1);
    while (it->used != 56)
        add(it, "", 1);
    for (int k = 0; k < 8; k++)
        tail[k] = (uint8_t)(bits >> (56 - 8 * k));
    add(it, tail, 8);
    for (int k = 0; k < 32; k++)
        digest[k] = (uint8_t)(it->state[k / 4] >> (24 - k % 4 * 8));
}

static void digest_of(const void *from, size_t n, uint8_t digest[32]) {
    struct sha256 it;
    begin(&it);
    add(&it, from, n);
    end(&it, digest);
}

/* The authentication code under a key of at most 64 bytes. */
static void code_of(const char *key, const void *from, size_t n, uint8_t code[32]) {
    uint8_t inner[64] = {0}, outer[64] = {0};
    struct sha256 it;
    memcpy(inner, key, strlen(key));
    memcpy(outer, key, strlen(key));
    for (int k = 0; k < 64; k++)
        inner[k] ^= 0x36, outer[k] ^= 0x5c;
    begin(&it);
    add(&it, inner, 64);
    add(&it, from, n);
    end(&it, code);
    begin(&it);
    add(&it, outer, 64);
    add(&it, code, 32);
    end(&it, code);
}

static void show(const uint8_t digest[32], const char *of) {
    for (int k = 0; k < 32; k++)
        printf("%02x", digest[k]);
    printf("  %s\n", of);
}

int main(void) {
    static char text[8192], line[256];
    uint8_t digest[32];
    size_t n = 0;
    while (fgets(line, sizeof line, stdin)) {
        size_t m = strlen(line);
        if (n + m > sizeof text)
            return 1;
        memcpy(text + n, line, m);
        n += m;
        line[strcspn(line, "\n")] = 0;
        digest_of(line, strlen(line), digest);
        show(digest, line);
    }
    digest_of(text, n, digest);
    show(digest, "(all)");
    code_of("key", text, n, digest);
    show(digest, "(all, under a key)");
    return digest[0];
}
