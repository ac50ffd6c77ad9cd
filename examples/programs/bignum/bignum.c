/* Numbers of any length, in nine decimal digits a piece. A line of the input asks for one: `N !` is a factorial, `N ^ M` a
   power, `N f` a number of Fibonacci, `N * M` and `N + M` what they say, `N / M` a quotient and what is left. */
#include <assert.h>
#include <ctype.h>
#include <stdint.h>
#include <stdio.h>
#include <stdlib.h>
#include <string.h>

enum { PIECES = 120 };
static const uint32_t BASE = 1000000000;

/* The lowest piece first, without zeros in front. */
struct number {
    int n;
    uint32_t piece[PIECES];
};

static void trim(struct number *it) {
    while (it->n > 0 && it->piece[it->n - 1] == 0)
        it->n--;
}

static void set(struct number *it, uint32_t n) {
    it->n = 2;
    it->piece[0] = n % BASE;
    it->piece[1] = n / BASE;
    trim(it);
}

static void push(struct number *it, uint32_t piece) {
    assert(it->n < PIECES);
    it->piece[it->n++] = piece;
}

/* it = it * by + plus */
static void scale(struct number *it, uint32_t by, uint32_t plus) {
    uint64_t carry = plus;
    for (int k = 0; k < it->n; k++) {
        carry += (uint64_t)it->piece[k] * by;
        it->piece[k] = (uint32_t)(carry % BASE);
        carry /= BASE;
    }
    for (; carry; carry /= BASE)
        push(it, (uint32_t)(carry % BASE));
    trim(it);
}

static void add(struct number *to, const struct number *a) {
    uint32_t carry = 0;
    for (int k = 0; k < a->n || carry; k++) {
        if (k == to->n)
            push(to, 0);
        uint32_t sum = to->piece[k] + carry + (k < a->n ? a->piece[k] : 0);
        carry = sum >= BASE;
        to->piece[k] = carry ? sum - BASE : sum;
    }
}

static void multiply(struct number *to, const struct number *a, const struct number *b) {
    memset(to, 0, sizeof *to);
    for (int i = 0; i < a->n; i++) {
        uint64_t carry = 0;
        for (int k = 0; k < b->n || carry; k++) {
            assert(i + k < PIECES);
            carry += to->piece[i + k] + (uint64_t)a->piece[i] * (k < b->n ? b->piece[k] : 0);
            to->piece[i + k] = (uint32_t)(carry % BASE);
            carry /= BASE;
        }
    }
    to->n = a->n + b->n < PIECES ? a->n + b->n : PIECES;
    trim(to);
}

/* Divides in place by a small number, and gives what is left. */
static uint32_t divide(struct number *it, uint32_t by) {
    uint64_t left = 0;
    for (int k = it->n - 1; k >= 0; k--) {
        left = left * BASE + it->piece[k];
        it->piece[k] = (uint32_t)(left / by);
        left %= by;
    }
    trim(it);
    return (uint32_t)left;
}

static int digits(const struct number *it, char *to) {
    char *at = to + sprintf(to, "%u", it->n ? (unsigned)it->piece[it->n - 1] : 0u);
    for (int k = it->n - 2; k >= 0; k--)
        at += sprintf(at, "%09u", (unsigned)it->piece[k]);
    return (int)(at - to);
}

static void show(const struct number *it) {
    static char text[9 * PIECES + 10];
    int n = digits(it, text), sum = 0;
    for (int k = 0; k < n; k++) {
        sum += text[k] - '0';
        putchar(text[k]);
        if ((k + 1) % 60 == 0 && k + 1 < n)
            putchar('\n');
    }
    printf("\n  %d digits, sum %d\n", n, sum);
}

static const char *read_number(struct number *to, const char *at) {
    set(to, 0);
    while (isspace((unsigned char)*at))
        at++;
    for (; isdigit((unsigned char)*at); at++)
        scale(to, 10, (uint32_t)(*at - '0'));
    return at;
}

static void factorial(struct number *to, uint32_t n) {
    set(to, 1);
    for (uint32_t k = 2; k <= n; k++)
        scale(to, k, 0);
}

static void fibonacci(struct number *to, uint32_t n) {
    static struct number next;
    set(to, 0);
    set(&next, 1);
    while (n-- > 0) {
        struct number kept = next;
        add(&next, to);
        *to = kept;
    }
}

static void power(struct number *to, const struct number *base, uint32_t n) {
    static struct number square, made;
    square = *base;
    set(to, 1);
    for (; n > 0; n >>= 1) {
        if (n & 1) {
            multiply(&made, to, &square);
            *to = made;
        }
        if (n > 1) {
            multiply(&made, &square, &square);
            square = made;
        }
    }
}

static int answer(const char *line) {
    static struct number a, b, made;
    const char *at = read_number(&a, line);
    while (*at == ' ')
        at++;
    char what = *at ? *at++ : 0;
    read_number(&b, at);
    uint32_t small = a.n ? a.piece[0] : 0, other = b.n ? b.piece[0] : 0;
    switch (what) {
    case '!':
        factorial(&made, small);
        break;
    case 'f':
        fibonacci(&made, small);
        break;
    case '^':
        power(&made, &a, other);
        break;
    case '*':
        multiply(&made, &a, &b);
        break;
    case '+':
        made = a;
        add(&made, &b);
        break;
    case '/':
        if (other == 0)
            return 0;
        made = a;
        printf("(left %u) ", (unsigned)divide(&made, other));
        break;
    default:
        return 0;
    }
    show(&made);
    return 1;
}

int main(void) {
    static char line[1000];
    int answers = 0;
    while (fgets(line, sizeof line, stdin))
        if (answer(line))
            answers++;
        else
            printf("not understood: %s", line);
    return answers;
}
