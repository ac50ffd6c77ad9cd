/* Volatile objects of each width: written, read back narrow and wide, counted in a loop. */
/* prints: -1 255 -2 65534 -3 4294967293\n10 45\nbusy done\n */
/* returns: 55 */
int putchar(int);

static volatile signed char narrow;
static volatile short middle;
static volatile int word;
static volatile long long wide;
static volatile _Bool ready;
static volatile unsigned ticks[2];

static void number(long long n) {
    if (n < 0) {
        putchar('-');
        n = -n;
    }
    if (n >= 10)
        number(n / 10);
    putchar('0' + (int)(n % 10));
}

static void say(const char *s) {
    while (*s)
        putchar(*s++);
}

static void pair(long long a, long long b, char end) {
    number(a);
    putchar(' ');
    number(b);
    putchar(end);
}

int main(void) {
    narrow = -1;
    middle = -2;
    word = -3;
    pair(narrow, (unsigned char)narrow, ' ');
    pair(middle, (unsigned short)middle, ' ');
    pair(word, (unsigned)word, '\n');
    wide = 0;
    while (ticks[0] < 10) {
        wide += ticks[0];
        ticks[0]++;
        ticks[1] = ticks[0] * ticks[0];
    }
    pair(ticks[0], wide, '\n');
    say(ready ? "idle " : "busy ");
    ready = ticks[1];
    say(ready ? "done\n" : "stuck\n");
    return (int)(wide + ticks[0]);
}
