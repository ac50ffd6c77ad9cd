/* Structs as parameters and results, of few and of many bytes, also through a pointer to a function, and bit fields. */
#include <stdarg.h>
#include <stdio.h>
struct two { int a, b; };
struct three { long long a; int b; short c; };
struct big { int v[10]; };
struct colour { unsigned char r, g, b; };
struct five { signed char v[5]; };
struct six { short v[3]; };
struct seven { unsigned char v[7]; };
struct bits { int a : 24; };
struct more_bits { unsigned a : 20; int b : 20; unsigned long long c : 24; signed char d; };
struct packed { unsigned a : 3; int b : 21; unsigned char c; } __attribute__((packed));
static struct two __attribute__((noinline)) swap(struct two x) { struct two y = {x.b, x.a}; return y; }
static struct three __attribute__((noinline)) more(struct three x, int k) { x.a += k; x.b ^= k; x.c++; return x; }
static struct big __attribute__((noinline)) shift(struct big x) { for (int k = 9; k > 0; k--) x.v[k] = x.v[k - 1]; x.v[0] = 7; return x; }
static int __attribute__((noinline)) sum(struct big x, struct two y) { int s = y.a - y.b; for (int k = 0; k < 10; k++) s += x.v[k] * k; x.v[3] = 0; return s; }
typedef struct three turn(struct three, int);

static struct colour __attribute__((noinline)) mixed(struct colour x, struct colour y) { return (struct colour){x.r + y.b, x.g ^ y.g, x.b - y.r}; }
static struct five __attribute__((noinline)) turned(struct five x, signed char c) { struct five y = {{x.v[4], x.v[3], x.v[2], x.v[1], x.v[0] + c}}; return y; }
static struct six __attribute__((noinline)) halves(struct six x) { for (int k = 0; k < 3; k++) x.v[k] /= 2; return x; }
static struct seven __attribute__((noinline)) counted(struct seven x) { for (int k = 0; k < 7; k++) x.v[k] += k; return x; }

static int __attribute__((noinline)) listed(int n, ...) {
    int sum = 0;
    va_list list;
    va_start(list, n);
    for (int k = 0; k < n; k++) {
        struct colour x = va_arg(list, struct colour);
        struct six y = va_arg(list, struct six);
        sum = sum * 3 + x.r - x.b + y.v[0] * y.v[2];
    }
    va_end(list);
    return sum;
}

static struct bits kept[2] = {{-5}, {70000}};
static struct packed close[2] = {{5, -3, 200}, {7, 90000, 1}};

static void fields(int n) {
    struct more_bits x = {(unsigned)n, -n, 0xABCDEF, (signed char)n};
    for (int k = 0; k < 5; k++) {
        kept[k & 1].a += k * n - 3;
        close[k & 1].b = close[k & 1].b * 3 + kept[0].a, close[k & 1].a += 3, close[k & 1].c ^= n;
        x.a += 70000, x.b = x.b / 3 - k, x.c = x.c * 5 + (unsigned)n, x.d >>= 1;
        x.b < kept[1].a ? x.a-- : x.c--;
    }
    printf("%d %d %u %d %lu %d", kept[0].a, kept[1].a, x.a, x.b, (unsigned long)x.c, x.d);
    printf(" %d %d %d %d\n", close[0].a, close[0].b, close[1].b, close[1].c);
}

static void small(int n) {
    struct colour x = {n, n >> 3, n >> 5}, y = mixed(x, (struct colour){1, 2, 3});
    struct five f = turned((struct five){{1, 2, 3, 4, (signed char)n}}, 9);
    struct six s = halves((struct six){{(short)n, -7, 9}});
    struct seven v = counted((struct seven){{n, 2, 3, 4, 5, 6, 7}});
    printf("%d %d %d %d %d %d %d %d %d", y.r, y.g, y.b, f.v[0], f.v[4], s.v[0], s.v[1], v.v[0], v.v[6]);
    printf(" %d\n", listed(2, x, s, y, (struct six){{3, 4, 5}}));
}

int main(void) {
    for (int k = -3; k < 1000; k += 77)
        fields(k * 13), small(k);
    struct two t = swap((struct two){3, 4});
    struct three u = {1LL << 40, 5, 6};
    turn *volatile f = more;
    for (int k = 0; k < 4; k++) u = k % 2 ? f(u, k) : more(u, 2 * k);
    struct big b = {{1, 2, 3, 4, 5, 6, 7, 8, 9, 10}};
    struct big c = shift(shift(b));
    printf("%d %d %lld %d %d %d %d %d\n", t.a, t.b, u.a, u.b, u.c, sum(b, t), sum(c, swap(t)), b.v[3]);
    return c.v[1];
}
