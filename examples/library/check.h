/* What the tests of the library share: numbers that look drawn by chance, and a digest of all results of a function. The
   results do not depend on the target's widths, so that one output is wanted of all targets. */
#include <stdint.h>
#include <stdio.h>

static uint64_t chance = 88172645463325252u, digest = 1469598103934665603u;
static unsigned calls;

/* A number below the given one. */
static inline unsigned draw(unsigned below) {
    chance ^= chance << 13;
    chance ^= chance >> 7;
    chance ^= chance << 17;
    return (unsigned)(chance >> 20) % below;
}

static inline void note(int64_t result) {
    digest = (digest ^ (uint64_t)result) * 1099511628211u;
    digest ^= digest >> 32;
}

/* A call, with its result. */
static inline void called(int64_t result) {
    calls++;
    note(result);
}

static inline void note_bytes(const void *at, unsigned n) {
    for (unsigned k = 0; k < n; k++)
        note(((const unsigned char *)at)[k]);
}

static inline int sign(int n) { return n < 0 ? -1 : n > 0; }

static inline void report(const char *name) {
    printf("%-12s %5u calls %08x%08x\n", name, calls, (unsigned)(digest >> 32), (unsigned)digest);
    digest = 1469598103934665603u;
    calls = 0;
}
