/* Each function of ctype.h, and those of stdlib.h and inttypes.h that make numbers. */
#include <ctype.h>
#include <errno.h>
#include <inttypes.h>
#include <limits.h>
#include <stdlib.h>
#include <string.h>
#include "check.h"

enum { ROUNDS = 1500 };

#define CLASS(name)                                \
    for (int round = 0; round < 5; round++)        \
        for (int c = -1; c < 256; c++)             \
            called(name(c) != 0);                  \
    report(#name);

#define CASE(name)                                 \
    for (int round = 0; round < 5; round++)        \
        for (int c = -1; c < 256; c++)             \
            called(name(c));                       \
    report(#name);

static void classes(void) {
    CLASS(isalnum)
    CLASS(isalpha)
    CLASS(isblank)
    CLASS(iscntrl)
    CLASS(isdigit)
    CLASS(isgraph)
    CLASS(islower)
    CLASS(isprint)
    CLASS(ispunct)
    CLASS(isspace)
    CLASS(isupper)
    CLASS(isxdigit)
    CLASS(isascii)
    CASE(toascii)
    CASE(tolower)
    CASE(toupper)
}

static char text[64];

/* A text that begins as a number, most often: spaces, a sign, a mark of the base, digits, and something behind. */
static void number(void) {
    static const char *const spaces[] = {"", "", "", " ", "\t\n ", "\v\f\r"}, *const signs[] = {"", "", "-", "+", "--"};
    static const char *const marks[] = {"", "", "0x", "0X", "0", "0xg", "x"}, *const ends[] = {"", " ", "z", ".5", "-", "_"};
    static const char *const edges[] = {"2147483647", "2147483648", "-2147483648", "-2147483649", "4294967295", "4294967296", "9223372036854775807",
        "9223372036854775808", "-9223372036854775808", "-9223372036854775809", "18446744073709551615", "18446744073709551616", "-18446744073709551615",
        "-18446744073709551616", "99999999999999999999999", "7fffffff", "80000000", "0x7fffffffffffffff", "0x8000000000000000", "0xffffffffffffffff", "0", "-0", "", "+"};
    if (draw(5) == 0) {
        strcpy(text, edges[draw(sizeof edges / sizeof *edges)]);
        return;
    }
    strcpy(text, spaces[draw(6)]);
    strcat(text, signs[draw(5)]);
    strcat(text, marks[draw(7)]);
    unsigned n = draw(4) ? draw(8) : draw(24), base = draw(2) ? 10 : 2 + draw(35), at = (unsigned)strlen(text);
    for (unsigned k = 0; k < n; k++) {
        unsigned d = draw(base);
        text[at++] = (char)(d < 10 ? '0' + d : draw(2) ? 'a' + d - 10 : 'A' + d - 10);
    }
    text[at] = 0;
    strcat(text, ends[draw(6)]);
}

static int base(void) {
    static const int some[] = {0, 0, 10, 10, 10, 16, 16, 8, 2, 36, 1, -1, 37};
    return draw(3) ? some[draw(13)] : (int)(2 + draw(35));
}

/* What a call gives, where it ends, and its fault. */
#define READER(name, result)                            \
    for (int round = 0; round < ROUNDS; round++) {      \
        char *end = text;                               \
        int by = base();                                \
        number();                                       \
        errno = 0;                                      \
        called((int64_t)(result));                      \
        note(end - text);                               \
        note(errno == ERANGE ? 1 : errno == EINVAL ? 2 : errno); \
    }                                                   \
    report(name);

/* The functions for long agree with those for long long, cut to the ends of long: this is so on all targets. */
static int64_t narrow(void) {
    char *end = text, *same = text;
    int by = base();
    number();
    errno = 0;
    long n = strtol(text, &end, by);
    int fault = errno;
    errno = 0;
    long long m = strtoll(text, &same, by);
    int wide = errno;
    if (m > LONG_MAX)
        m = LONG_MAX, wide = ERANGE;
    if (m < LONG_MIN)
        m = LONG_MIN, wide = ERANGE;
    return n == m && fault == wide && end == same;
}

static int64_t narrow_unsigned(void) {
    char *end = text, *same = text;
    int by = base();
    number();
    errno = 0;
    unsigned long n = strtoul(text, &end, by);
    int fault = errno;
    errno = 0;
    unsigned long long m = strtoull(text, &same, by), size = memchr(text, '-', (size_t)(same - text)) ? -m : m;
    int wide = errno;
    if (wide == 0 && size > ULONG_MAX)
        m = ULONG_MAX, wide = ERANGE;
    return n == (unsigned long)m && fault == wide && end == same;
}

#define EACH(name, result)                       \
    for (int round = 0; round < ROUNDS; round++) { \
        number();                                \
        called(result);                          \
    }                                            \
    report(name);

static int64_t any(void) {
    static const int64_t edges[] = {0, 1, -1, INT32_MAX, INT32_MIN + 1, INT64_MAX, INT64_MIN + 1, 1LL << 31, 1LL << 32};
    return draw(4) ? (int64_t)((uint64_t)draw(1u << 31) << 33 ^ (uint64_t)draw(1u << 31) << 8 ^ draw(4096)) >> draw(60) : edges[draw(9)];
}

static int64_t quotients(void) {
    long long n = any(), by = any();
    if (by == 0)
        by = 7;
    lldiv_t wide = lldiv(n, by);
    ldiv_t middle = ldiv((int)n, (int)by == 0 || (int)n == INT_MIN ? 3 : (int)by);
    div_t narrow = div((int)n, (int)by == 0 || (int)n == INT_MIN ? 3 : (int)by);
    imaxdiv_t widest = imaxdiv(n, by);
    note(wide.quot), note(wide.rem), note(middle.quot), note(middle.rem), note(narrow.quot), note(widest.quot), note(widest.rem);
    return narrow.rem;
}

static void random_numbers(void) {
    for (int k = 0; k < 1000; k++)
        called(rand());
    report("rand");
    for (int k = 0; k < 1000; k++) {
        srand(k < 10 ? (unsigned)k : draw(1u << 31) * 2);
        called(rand() ^ rand());
    }
    report("srand");
    for (int k = 0; k < 1000; k++) {
        unsigned seed = draw(1u << 31);
        called(rand_r(&seed));
        note(seed);
    }
    report("rand_r");
}

int main(void) {
    classes();
    READER("strtoll", strtoll(text, &end, by))
    READER("strtoull", strtoull(text, &end, by))
    READER("strtoimax", strtoimax(text, &end, by))
    READER("strtoumax", strtoumax(text, &end, by))
    EACH("strtol", narrow())
    EACH("strtoul", narrow_unsigned())
    EACH("atoi", strlen(text) < 10 ? atoi(text) : 0)
    EACH("atol", strlen(text) < 10 ? atol(text) : 0)
    EACH("atoll", atoll(text))
    EACH("abs", abs((int)any() == INT_MIN ? 1 : (int)draw(1u << 31) - (1 << 30)))
    EACH("labs", labs((long)draw(1u << 31) - (1 << 30)))
    EACH("llabs", llabs(any()))
    EACH("imaxabs", imaxabs(any()))
    EACH("div", quotients())
    random_numbers();
    return 0;
}
