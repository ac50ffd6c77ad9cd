/* printf and its kin: each conversion with many flags, widths and precisions, on edge values. */
#define _GNU_SOURCE
#include <inttypes.h>
#include <stdarg.h>
#include <stddef.h>
#include <stdio.h>
#include <stdlib.h>
#include <string.h>
#include "check.h"

static char line[400];

static void noted(int n) {
    called(n);
    note_bytes(line, (unsigned)strlen(line) + 1);
}

static const int64_t edges[] = {0, 1, -1, 7, 8, 9, 10, -10, 15, 16, 127, 128, 255, 256, -128, 32767, 32768, 65535, 65536, INT32_MAX, INT32_MIN, UINT32_MAX, INT64_MAX, INT64_MIN, 1234567890123456789};

static int64_t any(void) {
    return draw(3) ? edges[draw(25)] : (int64_t)((uint64_t)draw(1u << 31) << 33 ^ (uint64_t)draw(1u << 31) << 8 ^ draw(4096)) >> draw(64);
}

/* Flags and a conversion of int, with many widths and precisions. */
#define FLAGS(f, c)                                                                                                           \
    noted(snprintf(line, sizeof line,                                                                                         \
                   "[%" f c "][%" f "5" c "][%-" f "5" c "][%0" f "5" c "][%" f ".0" c "][%" f ".3" c "][%" f "8.3" c            \
                   "][%-" f "8.3" c "][%0" f "8.3" c "][%" f "12" c "][%" f "*" c "][%" f ".*" c "][%-" f "*.*" c "]",          \
                   n, n, n, n, n, n, n, n, n, n, w, n, p, n, w, p, n))

static void integers(void) {
    for (int round = 0; round < 1100; round++) {
        int n = (int)any(), w = (int)draw(20) - 6, p = (int)draw(10) - 2;
        FLAGS("", "d");
        FLAGS("+", "i");
        FLAGS(" ", "d");
    }
    report("%d %i");
    for (int round = 0; round < 1100; round++) {
        unsigned n = (unsigned)any();
        int w = (int)draw(20) - 6, p = (int)draw(10) - 2;
        FLAGS("", "u");
        FLAGS("", "x");
        FLAGS("", "X");
        FLAGS("#", "x");
        FLAGS("#", "X");
        FLAGS("", "o");
        FLAGS("#", "o");
    }
    report("%u %x %o");
}

static void widths(void) {
    for (int round = 0; round < 1100; round++) {
        int64_t n = any();
        noted(sprintf(line, "%hhd %hd %d %" PRId64 " %lld %jd", (signed char)n, (short)n, (int)n, n, (long long)n, (intmax_t)n));
        noted(sprintf(line, "%hhu %hu %u %" PRIu64 " %llx %jo", (unsigned char)n, (unsigned short)n, (unsigned)n, (uint64_t)n, (unsigned long long)n, (uintmax_t)n));
        noted(sprintf(line, "%hhx %hx %#" PRIX64 " %020" PRId64 " %-22" PRIi64 "|", (unsigned char)n, (unsigned short)n, (uint64_t)n, n, n));
        noted(sprintf(line, "%ld %lu %zu %td", (long)(int)n, (unsigned long)(unsigned)n, (size_t)(unsigned)n, (ptrdiff_t)(int)n));
        noted(sprintf(line, "%hhd %hd", (int)(n & 0xFFFF), (int)(n & 0xFFFFFF)));
        noted(sprintf(line, "%" PRId8 " %" PRIu16 " %" PRIx32 " %" PRIdMAX " %" PRIuPTR, (int8_t)n, (uint16_t)n, (uint32_t)n, (intmax_t)n, (uintptr_t)(unsigned)n));
    }
    report("widths");
}

static void texts(void) {
    static const char *const some[] = {"", "a", "abc", "a longer text, with spaces", "\x80\xff"};
    for (int round = 0; round < 1100; round++) {
        const char *s = some[draw(5)];
        int w = (int)draw(40) - 12, p = (int)draw(12) - 2, c = 32 + (int)draw(90);
        noted(sprintf(line, "%s|%10s|%-10s|%.2s|%.0s|%5.1s|%*s|%.*s|%*.*s", s, s, s, s, s, s, w, s, p, s, w, p, s));
        noted(sprintf(line, "%c|%4c|%-4c|%*c|%%|100%%", c, c, c, w, c));
        noted(sprintf(line, "plain"));
        noted(sprintf(line, "%s", s));
    }
    noted(sprintf(line, "%p %12p %-8p|", (void *)0, (void *)0, (void *)0));
    noted(sprintf(line, "%p %p %12p", (void *)16, (void *)0x7fff, (void *)0xabc));
    report("%s %c %p");
}

static void bounds(void) {
    for (int round = 0; round < 1100; round++) {
        size_t n = draw(30);
        memset(line, '#', 60);
        line[59] = 0;
        called(snprintf(n ? line : NULL, n, "%d and %s, %05u", (int)any(), "some text", (unsigned)any()));
        note_bytes(line, 60);
    }
    report("snprintf");
}

/* A format that is put together at run time, and arguments that are handed on as a list. */
static int listed(char *to, size_t n, const char *format, ...) {
    va_list list;
    va_start(list, format);
    int count = vsnprintf(to, n, format, list);
    va_end(list);
    return count;
}

static int unbounded(char *to, const char *format, ...) {
    va_list list;
    va_start(list, format);
    int count = vsprintf(to, format, list);
    va_end(list);
    return count;
}

static int made(const char *format, ...) {
    char *text;
    va_list list;
    va_start(list, format);
    int count = vasprintf(&text, format, list);
    va_end(list);
    strcpy(line, text);
    free(text);
    return count;
}

/* Flags, a width and a precision behind %. */
static void begun(char *format) {
    static const char *const flags[] = {"", "", "-", "+", " ", "#", "0", "-#", "+0", "-0", " -"}, *const widths[] = {"", "", "1", "9", "23", "*"};
    static const char *const precisions[] = {"", "", ".", ".0", ".3", ".11", ".*"};
    strcpy(format, "<%");
    strcat(format, flags[draw(11)]);
    strcat(format, widths[draw(6)]);
    strcat(format, precisions[draw(7)]);
}

/* A call of each of the functions, with the measures that the format asks for. */
#define MEASURED(call, n)                                                                          \
    if (strchr(format, '*') != strrchr(format, '*'))                                               \
        noted(call(w, p, n, w));                                                                   \
    else if (strchr(format, '*'))                                                                  \
        noted(call(w, n, p));                                                                      \
    else                                                                                           \
        noted(call(n, w));
#define LISTED(...) listed(line, sizeof line, format, __VA_ARGS__)
#define UNBOUNDED(...) unbounded(line, format, __VA_ARGS__)
#define MADE(...) made(format, __VA_ARGS__)
#define PLAIN(...) snprintf(line, sizeof line, format, __VA_ARGS__)
#define ALLOCATED(...) (asprintf(&own, format, __VA_ARGS__) + 0 * (int)strlen(strcpy(line, own)))

static void chosen(void) {
    static const char *const ends[] = {"d|%i>", "i|%%%d>", "u|%d>", "x>%x", "X %d", "o %i"};
    static const char *const wides[] = {"lld|%i>", "jd %d", "llx:%u", "jo%i", "llu%d", "qi %d"}, *const shorts[] = {"hhd%d", "hi %d", "hhx%d", "hu%%%d"};
    char format[60], *own = line;
    for (int round = 0; round < 5500; round++) {
        int64_t n = any();
        int w = (int)draw(20) - 6, p = (int)draw(10) - 2;
        begun(format);
        strcat(format, ends[draw(6)]);
        MEASURED(LISTED, (int)n)
        MEASURED(PLAIN, (int)n)
        begun(format);
        strcat(format, wides[draw(6)]);
        MEASURED(UNBOUNDED, (long long)n)
        begun(format);
        strcat(format, shorts[draw(4)]);
        MEASURED(MADE, (int)n)
        begun(format);
        strcat(format, draw(2) ? "ld.%d" : "zx.%d");
        MEASURED(LISTED, (long)(n & 0x7FFFFFFF))
        MEASURED(ALLOCATED, (long)(n & 0x7FFFFFFF))
        if (own != line)
            free(own);
        own = line;
    }
    report("run time");
    for (int round = 0; round < 1100; round++) {
        int w = (int)draw(20) - 6;
        strcpy(format, draw(2) ? "%*s|%c%%" : "%-*s,%5c");
        strcat(format, draw(2) ? "%.3s %p" : "%9.1s%p");
        noted(sprintf(line, format, w, draw(2) ? "abc" : "", 'a' + round % 26, "other", (void *)(size_t)(draw(2) * 4096)));
        noted(made(draw(2) ? "no conversion" : "%%"));
        called(listed(line, draw(20), draw(2) ? "%d and more" : "%x and then %%", (int)any()));
    }
    report("run time, s");
}

/* Prints a list on a stream. */
static int print(FILE *to, const char *format, ...) {
    va_list list, again;
    va_start(list, format);
    va_copy(again, list);
    int count = vfprintf(to, format, list) + (to == stdout ? vprintf(format, again) : 0);
    va_end(list);
    va_end(again);
    return count;
}

static FILE *output(void) { return stdout; }

static void streams(void) {
    int n = 0;
    for (int k = 0; k < 1000; k++) {
        n += printf("%d:%s%c", k, k % 7 ? "" : "seven", k % 20 == 19 ? '\n' : ' ');
        n += fprintf(stdout, "%x,%o;", (unsigned)k, (unsigned)k);
        n += fprintf(stderr, "unseen %d\n", k);
    }
    for (int k = 0; k < 1300; k++) {
        const char *format = k % 3 ? "%d:%s%c" : "%5d,%-3s%c";
        n += printf(format, k, k % 7 ? "" : "seven", k % 20 == 19 ? '\n' : ' ');
        n += fprintf(k % 5 ? stdout : stderr, format, -k, "-", '.');
        n += print(k % 5 ? stdout : stderr, format, k, "=", '!');
    }
    printf("\n%d bytes%s\n", n, "");
    fprintf(output(), "%s\n", "a call in the place of the stream");
}

int main(void) {
    integers();
    widths();
    texts();
    bounds();
    chosen();
    streams();
    return 0;
}
