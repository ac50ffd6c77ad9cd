/* Forms of C whose LLVM text the profile leaves out, and that from-c lowers: each line of output is one of them. */
#include <stdint.h>
#include <stdio.h>
#include <stdlib.h>
#include <string.h>

static _Thread_local int own = 5;

struct bits {
    unsigned a : 5, b : 27;
    int c : 24;
    unsigned d : 8;
};

/* An array whose length is known at run time alone, with a block of its own. */
__attribute__((noinline)) static int lengths(int n) {
    int sum = 0;
    if (n > 2) {
        int room[n];
        for (int k = 0; k < n; k++)
            room[k] = k * n;
        for (int k = 0; k < n; k++)
            sum += room[(k * 7) % n];
    }
    return sum;
}

/* Arrays of other lengths in each round of a loop, which is left in several ways. */
__attribute__((noinline)) static int rounds(int n) {
    int sum = 0;
    for (int k = 1; k < n; k++) {
        int room[k], (*two)[k] = &room;
        struct bits more[1 + k % 3];
        for (int i = 0; i < k; i++)
            room[i] = i * k + sum % 7, more[i % (1 + k % 3)].c = i - k;
        if (k % 7 == 3)
            continue;
        sum += (*two)[k / 2] - more[0].c + (k > 5 ? rounds(k / 3) : 0);
        if (sum > 100000)
            return sum;
    }
    return sum;
}

__attribute__((noinline)) static unsigned hidden(unsigned x) {
    __asm__ volatile("" : "+r"(x));
    __asm__ volatile("" ::: "memory");
    return x;
}

__attribute__((noinline)) static int known(const void *p, int n) {
    return (int)(__builtin_object_size(p, 0) == (size_t)-1) + 2 * __builtin_constant_p(n) + (__builtin_expect(n, 3) == n ? 4 : 0);
}

static const char *const names[] = {"none", "one", "two", "three", "four", "five", "six"};

__attribute__((noinline)) static const char *name(int n) {
    switch (n) {
    case 0: return names[0];
    case 1: return names[1];
    case 2: return names[2];
    case 3: return names[3];
    case 4: return names[4];
    case 5: return names[5];
    case 6: return names[6];
    default: return "many";
    }
}

/* Addresses of labels, as interpreters use them. */
__attribute__((noinline)) static int interpreted(const unsigned char *code, int n) {
    static const void *const table[] = {&&more, &&twice, &&less, &&end};
    const void *at = &&end;
    goto *table[*code++];
more:
    n += 3;
    goto *table[*code++];
twice:
    n *= 2;
    goto *table[*code++];
less:
    n -= 1;
    at = table[*code++];
    goto *at;
end:
    return n;
}

static _Atomic int held = 3;
static int shared = 4;
static unsigned char small = 250;

/* There are no threads, so what is done at once is done one thing after the other. */
__attribute__((noinline)) static int at_once(int n) {
    int wanted = 4, other = 77;
    held += n;
    small = (unsigned char)__sync_fetch_and_add(&small, 9);
    __atomic_thread_fence(__ATOMIC_SEQ_CST);
    int first = __atomic_compare_exchange_n(&shared, &wanted, n, 0, __ATOMIC_SEQ_CST, __ATOMIC_RELAXED);
    int second = __atomic_compare_exchange_n(&shared, &other, 5, 1, __ATOMIC_ACQ_REL, __ATOMIC_ACQUIRE);
    return held * 1000 + first * 100 + second * 10 + __atomic_exchange_n(&shared, 8, __ATOMIC_RELEASE) + other + small + __sync_val_compare_and_swap(&shared, 8, 2) + shared;
}

int thrice(int n) { return 3 * n; }
int other_name(int n) __attribute__((alias("thrice")));
static int number = 5;
static const char *const kept __attribute__((used)) = "kept";
__attribute__((weak)) extern int absent(int);
__attribute__((weak)) extern int nothing;
__attribute__((destructor)) static void at_last(void) { puts("at last"); }
static void first_registered(void) { puts("registered first"); }
static void registered(void) {
    printf("registered %d\n", number);
    atexit(first_registered);
}
__attribute__((constructor(300))) static void second(void) { number = number * 2 + 1; }
__attribute__((constructor(200))) static void first(void) { number += 10; }
extern int other_number __attribute__((alias("number")));

int main(int argc, char **argv) {
    volatile unsigned seed = 0x82345679;
    unsigned x = seed;
    struct bits bits = {x, x >> 3, -(int)(x & 0xFFFF), x >> 7};
    own += lengths(12);
    printf("%d %d %d %d\n", own, lengths(2), rounds(20), rounds(400));
    printf("%u %u %d %u\n", bits.a, bits.b, bits.c, bits.d);
    bits.c += 70000, bits.b ^= 12345;
    printf("%u %u %d %u\n", bits.a, bits.b, bits.c, bits.d);
    printf("%x %x %x\n", x << 7 | x >> 25, hidden(x) << 30 | x >> 2, (unsigned)(uint16_t)((uint16_t)x << 5 | (uint16_t)x >> 11));
    printf("%d %d %d\n", __builtin_popcount(x), __builtin_clz(x), __builtin_ctz(x));
    int sum, product;
    long long far;
    int over = __builtin_add_overflow((int)x, -70000000, &sum), more = __builtin_mul_overflow((int)x, 3, &product);
    int most = __builtin_mul_overflow((long long)x << 20, 1LL << 30, &far);
    printf("%d %d %d %d %d\n", over, sum, more, product, most);
    printf("%d %d\n", known(&x, (int)(x & 7)), (int)(x % 77) < 0 ? -1 : 1);
    for (int k = 0; k < 8; k++)
        printf("%s ", name((int)(x >> k & 7)));
    printf("%d\n", argc > 100 ? argv[0][0] : 0);
    int (*volatile named)(int) = other_name;
    printf("%d %d\n", absent ? absent(3) : 4, &nothing ? nothing : 5);
    atexit(registered);
    other_number++;
    printf("%d %d %d\n", other_name(4), named(5), number);
    printf("%d %d\n", interpreted((const unsigned char[]){0, 1, 2, 1, 3}, (int)(x & 15)), at_once(6));
    if (x == 1)
        __builtin_trap();
    if (argc < 100)
        exit((int)(x & 127));
    return 0;
}
