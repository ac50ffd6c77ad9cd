/* Recursion: the towers of Hanoi, Ackermann's function, two functions that call each other, a common divisor. */
/* prints: ab ac bc ab ca cb ab\n61 1 0 21\n */
/* returns: 61 */
int putchar(int);

static int moves;

static void hanoi(int n, char from, char to, char by) {
    if (n == 0)
        return;
    hanoi(n - 1, from, by, to);
    if (moves++)
        putchar(' ');
    putchar(from);
    putchar(to);
    hanoi(n - 1, by, to, from);
}

static unsigned ackermann(unsigned m, unsigned n) {
    if (m == 0)
        return n + 1;
    return ackermann(m - 1, n == 0 ? 1 : ackermann(m, n - 1));
}

static int odd(unsigned n);
static int even(unsigned n) { return n == 0 || odd(n - 1); }
static int odd(unsigned n) { return n != 0 && even(n - 1); }

static unsigned divisor(unsigned a, unsigned b) { return b == 0 ? a : divisor(b, a % b); }

static void number(unsigned n) {
    if (n >= 10)
        number(n / 10);
    putchar('0' + n % 10);
}

int main(void) {
    hanoi(3, 'a', 'b', 'c');
    putchar('\n');
    unsigned a = ackermann(3, 3), values[4] = {a, even(10), even(7), divisor(1071, 462)};
    for (int i = 0; i < 4; i++) {
        number(values[i]);
        putchar(i < 3 ? ' ' : '\n');
    }
    return (int)a;
}
