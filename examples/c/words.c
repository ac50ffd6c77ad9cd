/* Counts lines, words and bytes of its input, and gives the longest word back in capitals. */
/* input: a small device\nsends its work away\n */
/* prints: 2 7 35\nDEVICE\n */
/* returns: 6 */
int getchar(void);
int putchar(int);
int puts(const char *);

static char now[32], longest[32];

static void number(unsigned n) {
    if (n >= 10)
        number(n / 10);
    putchar('0' + n % 10);
}

static int keep(int length, int best) {
    if (length <= best)
        return best;
    for (int i = 0; i < length; i++)
        longest[i] = now[i] >= 'a' && now[i] <= 'z' ? now[i] - 32 : now[i];
    longest[length] = 0;
    return length;
}

int main(void) {
    unsigned lines = 0, words = 0, bytes = 0;
    int length = 0, best = 0, c;
    while ((c = getchar()) >= 0) {
        bytes++;
        if (c == '\n')
            lines++;
        if (c == ' ' || c == '\n' || c == '\t') {
            words += length > 0;
            best = keep(length, best);
            length = 0;
        } else if (length < 31) {
            now[length++] = (char)c;
        }
    }
    words += length > 0;
    best = keep(length, best);
    number(lines);
    putchar(' ');
    number(words);
    putchar(' ');
    number(bytes);
    putchar('\n');
    puts(longest);
    return best;
}
