/* Switches: dense, sparse, with gaps, falling through, on a 64-bit number, and one whose cases are strings. */
/* prints: zero one two many\nlow high other\n7 6 4\nhuge small\nvvcvcdp?\n */
/* returns: 17 */
int putchar(int);

static int calls;

static void word(const char *s, int last) {
    calls++;
    while (*s)
        putchar(*s++);
    putchar(last ? '\n' : ' ');
}

static const char *dense(int n) {
    switch (n) {
    case 0: return "zero";
    case 1: return "one";
    case 2: return "two";
    default: return "many";
    }
}

static const char *sparse(int n) {
    switch (n) {
    case -1000000: return "low";
    case 2000000000: return "high";
    default: return "other";
    }
}

static int falling(int n) {
    int sum = 0;
    switch (n) {
    case 1: sum += 1;
    case 2: sum += 2;
    case 3: sum += 4;
    }
    return sum;
}

static const char *wide(long long n) {
    switch (n) {
    case 0x123456789abLL: return "huge";
    default: return "small";
    }
}

static char sort_of(char c) {
    switch (c) {
    case 'a': case 'e': case 'i': case 'o': case 'u': return 'v';
    case '0' ... '9': return 'd';
    case '.': case ',': case '!': return 'p';
    default: return c >= 'a' && c <= 'z' ? 'c' : '?';
    }
}

int main(void) {
    for (int i = 0; i < 4; i++)
        word(dense(i), i == 3);
    word(sparse(-1000000), 0);
    word(sparse(2000000000), 0);
    word(sparse(7), 1);
    for (int i = 1; i <= 3; i++, calls++) {
        putchar('0' + falling(i));
        putchar(i == 3 ? '\n' : ' ');
    }
    word(wide(0x123456789abLL), 0);
    word(wide(3), 1);
    for (const char *s = "eixak4.#"; *s; s++)
        putchar(sort_of(*s));
    putchar('\n');
    return calls + 5;
}
