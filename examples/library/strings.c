/* Each function of string.h and strings.h, at all small lengths, at all offsets in a word, and with bytes above 127. */
#define _GNU_SOURCE
#include <stdlib.h>
#include <string.h>
#include <strings.h>
#include "check.h"

enum { ROUNDS = 1200, ROOM = 80 };
static char a[ROOM], b[ROOM], c[ROOM];

/* Bytes of a small alphabet, so that many are equal; now and then any byte but 0. */
static char letter(void) {
    static const char few[] = "abcAB, \x80\xff";
    return draw(20) ? few[draw(sizeof few - 1)] : (char)(1 + draw(255));
}

/* A string in a room that holds other bytes behind it; gives its length. */
static unsigned string(char *to, unsigned most) {
    unsigned n = draw(3) ? draw(most + 1) : draw(3);
    for (unsigned k = 0; k < ROOM; k++)
        to[k] = letter();
    to[n] = 0;
    return n;
}

static int64_t place(const void *at, const void *in) { return at ? (const char *)at - (const char *)in : -1; }

#define EACH(name, ...)                       \
    for (int round = 0; round < ROUNDS; round++) { \
        unsigned at = draw(8), n = string(a + at, 24), m = string(b, 24); \
        (void)n, (void)m;                     \
        __VA_ARGS__                           \
    }                                         \
    report(name);

static void searches(void) {
    EACH("memchr", called(place(memchr(a + at, letter(), draw(n + 9)), a));)
    EACH("memrchr", called(place(memrchr(a + at, letter(), draw(n + 9)), a));)
    EACH("strchr", called(place(strchr(a + at, draw(5) ? letter() : 0), a));)
    EACH("strchrnul", called(place(strchrnul(a + at, draw(5) ? letter() : 0), a));)
    EACH("strrchr", called(place(strrchr(a + at, draw(5) ? letter() : 0), a));)
    EACH("index", called(place(index(a + at, letter()), a));)
    EACH("rindex", called(place(rindex(a + at, letter()), a));)
    EACH("strlen", called(strlen(a + at));)
    EACH("strnlen", called(strnlen(a + at, draw(30)));)
    EACH("strspn", called(strspn(a + at, b));)
    EACH("strcspn", b[draw(4)] = 0; called(strcspn(a + at, b));)
    EACH("strpbrk", b[draw(4)] = 0; called(place(strpbrk(a + at, b), a));)
    EACH("strstr", b[draw(4)] = 0; called(place(strstr(a + at, b), a));)
    EACH("strcasestr", b[draw(4)] = 0; called(place(strcasestr(a + at, b), a));)
    EACH("memmem", called(place(memmem(a + at, n, b, draw(4)), a));)
}

/* A copy with few changes, so that comparisons go far. */
static void likened(unsigned at) {
    memcpy(b, a + at, 40);
    if (draw(3))
        b[draw(30)] = draw(3) ? letter() : 0;
}

static void comparisons(void) {
    EACH("memcmp", likened(at); called(sign(memcmp(a + at, b, draw(40))));)
    EACH("bcmp", likened(at); called(bcmp(a + at, b, draw(40)) != 0);)
    EACH("strcmp", likened(at); called(sign(strcmp(a + at, b)));)
    EACH("strncmp", likened(at); called(sign(strncmp(a + at, b, draw(40))));)
    EACH("strcasecmp", likened(at); called(sign(strcasecmp(a + at, b)));)
    EACH("strncasecmp", likened(at); called(sign(strncasecmp(a + at, b, draw(40))));)
}

/* Makes calls through these, so that no compiler makes instructions of them. */
static void *(*volatile copy)(void *, const void *, size_t) = memcpy;
static void *(*volatile move)(void *, const void *, size_t) = memmove;
static void *(*volatile fill)(void *, int, size_t) = memset;

static void copies(void) {
    EACH("memcpy", called(place(memcpy(a + at, b, draw(40)), a)); note_bytes(a, 60);)
    EACH("*memcpy", called(place(copy(a + at, b, draw(40)), a)); note_bytes(a, 60);)
    EACH("memmove", called(place(memmove(a + at, a + draw(24), draw(40)), a)); note_bytes(a, 60);)
    EACH("*memmove", called(place(move(a + at, a + draw(24), draw(40)), a)); note_bytes(a, 60);)
    EACH("memset", called(place(memset(a + at, (int)draw(1000) - 500, draw(40)), a)); note_bytes(a, 60);)
    EACH("*memset", called(place(fill(a + at, (int)draw(1000) - 500, draw(40)), a)); note_bytes(a, 60);)
    EACH("mempcpy", called(place(mempcpy(a + at, b, draw(40)), a)); note_bytes(a, 60);)
    EACH("memccpy", called(place(memccpy(a + at, b, letter(), draw(40)), a)); note_bytes(a, 60);)
    EACH("bcopy", bcopy(a + draw(24), a + at, draw(40)); called(0); note_bytes(a, 60);)
    EACH("bzero", bzero(a + at, draw(40)); called(0); note_bytes(a, 60);)
    EACH("strcpy", called(place(strcpy(a + at, b), a)); note_bytes(a, 60);)
    EACH("strncpy", called(place(strncpy(a + at, b, draw(40)), a)); note_bytes(a, 60);)
    EACH("stpcpy", called(place(stpcpy(a + at, b), a)); note_bytes(a, 60);)
    EACH("stpncpy", called(place(stpncpy(a + at, b, draw(40)), a)); note_bytes(a, 60);)
    EACH("strcat", called(place(strcat(a + at, b), a)); note_bytes(a, 70);)
    EACH("strncat", called(place(strncat(a + at, b, draw(40)), a)); note_bytes(a, 70);)
}

static void tokens(void) {
    EACH("strtok", b[1 + draw(3)] = 0; for (char *it = strtok(a + at, b); it; it = strtok(NULL, b)) called(place(it, a)), note(strlen(it));
         called(-2); note_bytes(a, 40);)
    EACH("strtok_r", char *rest; b[1 + draw(3)] = 0;
         for (char *it = strtok_r(a + at, b, &rest); it; it = strtok_r(NULL, draw(2) ? b : ", ", &rest)) called(place(it, a)), note(strlen(it));
         called(-2); note_bytes(a, 40);)
    EACH("strsep", char *it, *rest = a + at; b[1 + draw(3)] = 0; while ((it = strsep(&rest, b))) called(place(it, a)), note(strlen(it));
         called(-2); note_bytes(a, 40);)
    EACH("strdup", char *it = strdup(a + at); called(strlen(it)); note_bytes(it, strlen(it) + 1); free(it);)
    EACH("strndup", char *it = strndup(a + at, draw(30)); called(strlen(it)); note_bytes(it, strlen(it) + 1); free(it);)
    EACH("ffs", called(ffs((int)(draw(2) ? 0 : draw(65536) << 16) | (int)(draw(2) ? 0u : draw(65536)))); (void)c;)
}

int main(void) {
    searches();
    comparisons();
    copies();
    tokens();
    return 0;
}
