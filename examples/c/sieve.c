/* Lucky numbers below 100: of the odd numbers every third goes, of what is left every seventh, and so on. */
/* prints: 1 3 7 9 13 15 21 25 31 33 37 43 49 51 63 67 69 73 75 79 87 93 99\n */
/* returns: 23 */
int putchar(int);

static unsigned char struck[100];

static void number(unsigned n) {
    if (n >= 10)
        number(n / 10);
    putchar('0' + n % 10);
}

static void strike_each(int step) {
    int seen = 0;
    for (int i = 1; i < 100; i++) {
        if (struck[i])
            continue;
        if (++seen == step) {
            struck[i] = 1;
            seen = 0;
        }
    }
}

int main(void) {
    int count = 0;
    for (int i = 0; i < 100; i += 2)
        struck[i] = 1;
    for (int i = 3; i < 100; i++)
        if (!struck[i])
            strike_each(i);
    for (int i = 1; i < 100; i++)
        if (!struck[i]) {
            if (count++)
                putchar(' ');
            number(i);
        }
    putchar('\n');
    return count;
}
