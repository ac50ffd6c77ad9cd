/* Reads sums from its input, one a line, by recursive descent: + - * / %, brackets, a sign. */
/* input: 1+2*3\n(1+2)*3\n-7/2\n2*(3+4)*5-69%7\n8/0\n */
/* prints: 7\n9\n-3\n64\nerror\n */
/* returns: 5 */
int getchar(void);
int putchar(int);
int puts(const char *);

struct reader { int next; _Bool wrong; };

static int sum(struct reader *r);

static int factor(struct reader *r) {
    int n = 0;
    if (r->next == '-') {
        r->next = getchar();
        return -factor(r);
    }
    if (r->next == '(') {
        r->next = getchar();
        n = sum(r);
        r->wrong |= r->next != ')';
        r->next = getchar();
        return n;
    }
    r->wrong |= r->next < '0' || r->next > '9';
    for (; r->next >= '0' && r->next <= '9'; r->next = getchar())
        n = 10 * n + r->next - '0';
    return n;
}

static int product(struct reader *r) {
    int n = factor(r);
    while (r->next == '*' || r->next == '/' || r->next == '%') {
        int sign = r->next, m;
        r->next = getchar();
        m = factor(r);
        if (sign == '*')
            n *= m;
        else if (m == 0)
            r->wrong = 1;
        else
            n = sign == '/' ? n / m : n % m;
    }
    return n;
}

static int sum(struct reader *r) {
    int n = product(r);
    while (r->next == '+' || r->next == '-') {
        int sign = r->next;
        r->next = getchar();
        n += sign == '+' ? product(r) : -product(r);
    }
    return n;
}

static void number(int n) {
    if (n < 0)
        putchar('-');
    if (n >= 10 || n <= -10)
        number(n < 0 ? -(n / 10) : n / 10);
    putchar('0' + (n < 0 ? -(n % 10) : n % 10));
}

int main(void) {
    struct reader r;
    int lines = 0;
    for (r.next = getchar(); r.next >= 0; r.next = getchar(), lines++) {
        r.wrong = 0;
        int n = sum(&r);
        if (r.wrong || r.next != '\n') {
            puts("error");
        } else {
            number(n);
            putchar('\n');
        }
    }
    return lines;
}
