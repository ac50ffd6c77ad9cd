/* Bits: counts, parity, turning round, Gray code, the highest and lowest one, rotations, a square root. */
/* prints: 13 1 2C48 24 9 28 3 23456781 46368\n */
/* returns: 13 */
int putchar(int);

static unsigned count(unsigned n) {
    unsigned c = 0;
    for (; n; n &= n - 1)
        c++;
    return c;
}

static unsigned parity(unsigned n) {
    for (int shift = 16; shift; shift /= 2)
        n ^= n >> shift;
    return n & 1;
}

static unsigned turned(unsigned n, int width) {
    unsigned r = 0;
    for (int i = 0; i < width; i++)
        if (n >> i & 1)
            r |= 1u << (width - 1 - i);
    return r;
}

static unsigned gray(unsigned n) { return n ^ n >> 1; }

static unsigned from_gray(unsigned g) {
    unsigned n = 0;
    for (; g; g >>= 1)
        n ^= g;
    return n;
}

static int highest(unsigned n) {
    int at = -1;
    for (; n; n >>= 1)
        at++;
    return at;
}

static int lowest(unsigned n) {
    int at = 0;
    for (; !(n & 1); n >>= 1)
        at++;
    return at;
}

static unsigned left(unsigned n, unsigned by) {
    unsigned high = n << (by & 31);
    return by & 31 ? high | n >> (32 - (by & 31)) : high;
}

static unsigned root(unsigned n) {
    unsigned r = 0;
    for (unsigned bit = 1u << 15; bit; bit >>= 1)
        if ((r | bit) * (r | bit) <= n)
            r |= bit;
    return r;
}

static void number(unsigned n, unsigned base) {
    if (n >= base)
        number(n / base, base);
    putchar("0123456789ABCDEF"[n % base]);
}

int main(void) {
    unsigned n = 0x12345678, c = count(n);
    unsigned values[9] = {c, parity(n), turned(n >> 16, 16), gray(16), from_gray(13), (unsigned)highest(n),
                          (unsigned)lowest(n), left(n, 36), root(2149991424u)};
    for (int i = 0; i < 9; i++) {
        number(values[i], i == 2 || i == 7 ? 16 : 10);
        putchar(i < 8 ? ' ' : '\n');
    }
    return (int)c;
}
