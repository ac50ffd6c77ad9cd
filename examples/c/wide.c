/* 64-bit arithmetic: a factorial, signed and unsigned division, shifts, a product of 128 bits in two halves. */
/* prints: 2432902008176640000\n-7 -3 9 6148914691236517205\n-1 1 65536\n54210108624 5076944270305263616\n */
/* returns: 42 */
int putchar(int);

typedef unsigned long long u64;
typedef long long i64;

static void number(u64 n) {
    if (n >= 10)
        number(n / 10);
    putchar('0' + (int)(n % 10));
}

static void signed_number(i64 n) {
    if (n < 0) {
        putchar('-');
        number(-(u64)n);
    } else {
        number((u64)n);
    }
}

static void gap(int last) { putchar(last ? '\n' : ' '); }

static u64 factorial(unsigned n) {
    u64 product = 1;
    for (unsigned i = 2; i <= n; i++)
        product *= i;
    return product;
}

/* The high half of the product of two numbers of 64 bits. */
static u64 high(u64 a, u64 b) {
    u64 a0 = (unsigned)a, a1 = a >> 32, b0 = (unsigned)b, b1 = b >> 32;
    u64 middle = a1 * b0 + (a0 * b0 >> 32), other = a0 * b1 + (unsigned)middle;
    return a1 * b1 + (middle >> 32) + (other >> 32);
}

static volatile i64 minus = -38, five = 5;
static volatile u64 most = ~0ULL;

int main(void) {
    number(factorial(20));
    gap(1);
    signed_number(minus / five);
    gap(0);
    signed_number(minus % five);
    gap(0);
    signed_number((i64)(most % 10) + 4);
    gap(0);
    number(most / 3);
    gap(1);
    signed_number(minus >> 40);
    gap(0);
    number(most >> 63);
    gap(0);
    number(((most >> 32) + 1) >> 16);
    gap(1);
    u64 a = 1000000000000000ULL;
    number(high(a, a));
    gap(0);
    number(a * a);
    gap(1);
    return (int)(factorial(20) / factorial(19)) * 2 + 2;
}
