/* Operators alone: 1,600,000 rounds of twelve instructions. */
int putchar(int);

int main(void) {
    unsigned x = 1, y = 0;
    for (unsigned k = 0; k < 1600000; k++) {
        x = x * 1664525 + 1013904223;
        y ^= x >> 13;
        y = (y << 3) - (y >> 5) + k;
        x += y;
    }
    putchar('a' + x % 26);
    return 0;
}
