/* Functions with a variable number of arguments: arguments of all integer types in mixed orders, pointers, structs by value, lists
   that are copied and handed on, calls through pointers, and functions that are declared without parameters. */
#include <stdarg.h>
#include <stdint.h>
#include <stdio.h>
#include <string.h>
#include "check.h"

struct pair { int a, b; };
struct wide { long long a; int b; };
struct tiny { short a; signed char b[2]; };
struct odd { int a; short b; };
struct five { int v[5]; };
struct big { int v[30]; };
struct rest { struct tiny t; struct wide w; const char *name; };

enum { INT = 'i', LONG = 'l', LLONG = 'q', POINTER = 'p', CHAR = 'c', SHORT = 's', BOOL = 'b', SIZE = 'z', PAIR = 'P', WIDE = 'W', TINY = 'T', ODD = 'O', FIVE = 'F', BIG = 'B', REST = 'R' };

static void noted_wide(struct wide w) { note(w.a), note(w.b); }

/* Takes the next argument, whose type a letter says. */
static int64_t taken(int type, va_list *list) {
    switch (type) {
    case INT: return va_arg(*list, int);
    case LONG: return va_arg(*list, long);
    case LLONG: return va_arg(*list, long long);
    case POINTER: return *va_arg(*list, const int *);
    case CHAR: return (signed char)va_arg(*list, int);
    case SHORT: return (short)va_arg(*list, int);
    case BOOL: return va_arg(*list, int) != 0;
    case SIZE: return (int64_t)va_arg(*list, size_t);
    }
    return -1;
}

/* The same for structs. */
static void taken_struct(int type, va_list *list) {
    if (type == PAIR) {
        struct pair x = va_arg(*list, struct pair);
        note(x.a), note(x.b);
    } else if (type == WIDE) {
        noted_wide(va_arg(*list, struct wide));
    } else if (type == TINY) {
        struct tiny x = va_arg(*list, struct tiny);
        note(x.a), note(x.b[0]), note(x.b[1]);
    } else if (type == ODD) {
        struct odd x = va_arg(*list, struct odd);
        note(x.a), note(x.b);
    } else if (type == FIVE) {
        struct five x = va_arg(*list, struct five);
        note_bytes(x.v, 0), note(x.v[0]), note(x.v[4]);
    } else if (type == BIG) {
        struct big x = va_arg(*list, struct big);
        for (int k = 0; k < 30; k++)
            note(x.v[k]);
    } else {
        struct rest x = va_arg(*list, struct rest);
        note(x.t.a), note(x.t.b[1]), noted_wide(x.w), note(x.name[1]);
    }
}

static int all(const char *types, va_list list) {
    int n = 0;
    va_list own;
    va_copy(own, list);
    for (; *types; types++, n++)
        if (*types < 'a')
            taken_struct(*types, &own);
        else
            note(taken(*types, &own));
    va_end(own);
    return n;
}

__attribute__((noinline)) static int seen(const char *types, ...) {
    va_list list;
    va_start(list, types);
    int n = all(types, list);
    /* The list itself has not moved. */
    n += 100 * all(types, list);
    va_end(list);
    return n;
}

/* Parameters of 8 bytes in front, so that what follows begins at another place of the stack. */
__attribute__((noinline)) static struct wide seen_behind(int a, long long b, signed char c, const char *types, ...) {
    va_list list;
    va_start(list, types);
    struct wide w = {a ^ b, c + all(types, list)};
    va_end(list);
    return w;
}

/* The end of the list is a pointer that is null. */
__attribute__((noinline)) static unsigned long long summed(const long long *first, ...) {
    va_list list;
    unsigned long long sum = 0;
    va_start(list, first);
    for (const long long *p = first; p; p = va_arg(list, const long long *))
        sum = sum * 3 + (unsigned long long)*p;
    va_end(list);
    return sum;
}

__attribute__((noinline)) static unsigned nested(int depth, ...) {
    va_list list;
    va_start(list, depth);
    unsigned a = va_arg(list, unsigned), b = va_arg(list, unsigned);
    va_end(list);
    return depth ? nested(depth - 1, b, a + nested(depth / 3 - 1 < 0 ? 0 : depth / 3 - 1, a, b) + 1) : a ^ b;
}

static inline int least(int n, ...) {
    va_list list;
    va_start(list, n);
    int least = va_arg(list, int);
    while (--n > 0) {
        int next = va_arg(list, int);
        least = next < least ? next : least;
    }
    va_end(list);
    return least;
}

static int listed(char *to, size_t n, const char *format, ...) {
    va_list list;
    va_start(list, format);
    int count = vsnprintf(to, n, format, list);
    va_end(list);
    return count;
}

/* Old C: a declaration without parameters, and a definition further on. */
static int old();
static long long old_wide();

static int64_t any(void) { return (int64_t)((uint64_t)draw(1u << 31) << 33 ^ (uint64_t)draw(1u << 31) << 8 ^ draw(4096)) >> draw(64); }

static void scalars(void) {
    static int (*volatile some[])(const char *, ...) = {seen, seen};
    for (int k = 0; k < 1100; k++) {
        int64_t n = any();
        int i = (int)n;
        long l = (long)(int)(n >> 3);
        short s = (short)n;
        signed char c = (signed char)n;
        called(seen("iqlpcsbz", i, (long long)n, l, &i, c, s, (_Bool)(n & 1), (size_t)(n & 0xFFFF)));
        called(seen("qiqiq", (long long)n, i, (long long)~n, c, n / 7 * 2));
        called(some[k & 1]("ciqscq", c, i, (long long)n, s, c, n / -3));
        called(seen("iiiiiiiiiiiiq", i, 1, i, 2, i, 3, i, 4, i, 5, i, 6, (long long)n));
        called(seen(""));
    }
    report("scalars");
}

static void structs(void) {
    static struct wide (*volatile f)(int, long long, signed char, const char *, ...) = seen_behind;
    for (int k = 0; k < 1100; k++) {
        int64_t n = any();
        int i = (int)n;
        struct pair p = {i, (int)(n >> 9)};
        struct wide w = {n, (int)(n >> 5)};
        struct tiny t = {(short)n, {(signed char)(n >> 1), (signed char)(n >> 2)}};
        struct odd o = {i, (short)(n >> 7)};
        struct five v = {{i, 2, 3, 4, (int)(n >> 1)}};
        struct big b = {{i, 2, 3, [29] = i / 2}};
        struct rest r = {t, w, "name"};
        called(seen("PiWTOi", p, i, w, t, o, 7));
        called(seen("WqPiBiW", w, (long long)n, p, i, b, i, w));
        called(seen("TTTTOOOPq", t, t, t, t, o, o, o, p, (long long)n));
        called(seen("FiFRcW", v, i, v, r, (signed char)n, w));
        noted_wide(seen_behind(i, n, (signed char)n, "WiWR", w, i, w, r));
        noted_wide(f(i, n, (signed char)n, "iPqTWO", i, p, (long long)n, t, w, o));
        called(b.v[29] ^ v.v[4]);
    }
    report("structs");
}

static void lists(void) {
    char line[120];
    for (int k = 0; k < 1100; k++) {
        long long a = any(), b = any(), c = any();
        called(summed(&a, &b, &c, &a, NULL));
        called(summed(NULL));
        called(nested((int)draw(9), (unsigned)a, (unsigned)b));
        called(least(5, (int)a, (int)b, (int)c, 1000, (int)(a ^ b)) + least(1, k));
        called(old((int)a, (signed char)b, &k));
        called(old_wide((int)a, b));
        called(listed(line, draw(120), "%d|%lld|%s|%c|%5u|%-6x|", (int)a, b, "text", 'a' + k % 26, (unsigned)c, (unsigned)a & 0xFFF));
        note_bytes(line, 5);
    }
    report("lists");
}

int main(void) {
    scalars();
    structs();
    lists();
    return 0;
}

static int old(a, c, p)
    int a;
    signed char c;
    int *p;
{
    return (a & 0xFFFFFF) * 3 + c + *p;
}

static long long old_wide(a, b)
    int a;
    long long b;
{
    return (a & 0xFFFFFF) + (b & 0xFFFFFF);
}
