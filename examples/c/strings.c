/* Lengths, comparison, joining, turning round and searching of strings, by hand. */
/* prints: offload native\nevitan daolffo\nNATIVE OFFLOAD\n14 -1 0 1\n8 -1\n */
/* returns: 14 */
int putchar(int);
int puts(const char *);

static int length(const char *s) {
    int n = 0;
    while (s[n])
        n++;
    return n;
}

static int compare(const char *a, const char *b) {
    for (; *a && *a == *b; a++)
        b++;
    return *a < *b ? -1 : *a > *b;
}

static char *join(char *to, const char *from) {
    while (*to)
        to++;
    while ((*to++ = *from++))
        ;
    return to - 1;
}

static void turn(char *s) {
    for (int i = 0, j = length(s) - 1; i < j; i++, j--) {
        char c = s[i];
        s[i] = s[j];
        s[j] = c;
    }
}

static int find(const char *s, const char *part) {
    for (int i = 0; s[i]; i++) {
        int j = 0;
        while (part[j] && s[i + j] == part[j])
            j++;
        if (!part[j])
            return i;
    }
    return -1;
}

static void number(int n) {
    if (n < 0) {
        putchar('-');
        n = -n;
    }
    if (n >= 10)
        number(n / 10);
    putchar('0' + n % 10);
}

int main(void) {
    char text[32] = "offload", upper[32] = "native offload";
    join(join(text, " "), "native");
    puts(text);
    int n = length(text), at = find(text, "native"), none = find(text, "server");
    turn(text);
    puts(text);
    for (char *p = upper; *p; p++)
        if (*p >= 'a' && *p <= 'z')
            *p -= 'a' - 'A';
    puts(upper);
    number(n);
    for (int k = 0; k < 3; k++) {
        static const char *const pairs[3][2] = {{"abc", "abd"}, {"same", "same"}, {"b", "a"}};
        putchar(' ');
        number(compare(pairs[k][0], pairs[k][1]));
    }
    putchar('\n');
    number(at);
    putchar(' ');
    number(none);
    putchar('\n');
    return n;
}
