/* Solves systems of linear equations in numbers with 16 bits behind the point. The input has the count of unknowns and, for
   each equation, its factors and its right side, as decimal numbers. */
#include <ctype.h>
#include <inttypes.h>
#include <stdio.h>
#include <stdlib.h>

enum { MOST = 12, POINT = 16 };
typedef int64_t fixed;

static fixed product(fixed a, fixed b) { return a * b / ((fixed)1 << POINT); }
static fixed quotient(fixed a, fixed b) { return a * ((fixed)1 << POINT) / b; }
static fixed size(fixed a) { return a < 0 ? -a : a; }

/* A decimal number with at most nine places. Gives 0 at the end of the input. */
static int read_number(fixed *to) {
    int c, below = 0;
    while ((c = getchar()) != EOF && isspace(c))
        ;
    if (c == '-') {
        below = 1;
        c = getchar();
    }
    if (!isdigit(c))
        return 0;
    fixed whole = 0, part = 0, scale = 1;
    for (; isdigit(c); c = getchar())
        whole = whole * 10 + (c - '0');
    if (c == '.')
        for (c = getchar(); isdigit(c); c = getchar())
            if (scale < 1000000000)
                part = part * 10 + (c - '0'), scale *= 10;
    ungetc(c, stdin);
    *to = whole * ((fixed)1 << POINT) + part * ((fixed)1 << POINT) / scale;
    if (below)
        *to = -*to;
    return 1;
}

static void show_number(fixed a) {
    uint64_t n = (uint64_t)size(a), part = ((n & ((1u << POINT) - 1)) * 1000 + (1u << (POINT - 1))) >> POINT;
    uint64_t whole = (n >> POINT) + part / 1000;
    printf("%s%" PRIu64 ".%03" PRIu64, a < 0 && (whole || part) ? "-" : "", whole, part % 1000);
}

struct system {
    int n;
    fixed row[MOST][MOST + 1];
};

static int read_system(struct system *it) {
    fixed n;
    if (!read_number(&n))
        return 0;
    it->n = (int)(n >> POINT);
    if (it->n < 1 || it->n > MOST)
        return 0;
    for (int r = 0; r < it->n; r++)
        for (int c = 0; c <= it->n; c++)
            if (!read_number(&it->row[r][c]))
                return 0;
    return 1;
}

static void exchange(struct system *it, int a, int b) {
    for (int c = 0; c <= it->n; c++) {
        fixed kept = it->row[a][c];
        it->row[a][c] = it->row[b][c];
        it->row[b][c] = kept;
    }
}

/* Gauss, with the greatest factor of a column as the one to divide by. Gives 0 where there is no single solution. */
static int solve(struct system *it, fixed to[MOST]) {
    for (int k = 0; k < it->n; k++) {
        int best = k;
        for (int r = k + 1; r < it->n; r++)
            if (size(it->row[r][k]) > size(it->row[best][k]))
                best = r;
        if (size(it->row[best][k]) < 16)
            return 0;
        exchange(it, k, best);
        for (int r = k + 1; r < it->n; r++) {
            fixed factor = quotient(it->row[r][k], it->row[k][k]);
            for (int c = k; c <= it->n; c++)
                it->row[r][c] -= product(factor, it->row[k][c]);
        }
    }
    for (int r = it->n - 1; r >= 0; r--) {
        fixed rest = it->row[r][it->n];
        for (int c = r + 1; c < it->n; c++)
            rest -= product(it->row[r][c], to[c]);
        to[r] = quotient(rest, it->row[r][r]);
    }
    return 1;
}

/* The greatest difference between a side and what the solution gives for it. */
static fixed fault(const struct system *it, const fixed by[MOST]) {
    fixed most = 0;
    for (int r = 0; r < it->n; r++) {
        fixed sum = -it->row[r][it->n];
        for (int c = 0; c < it->n; c++)
            sum += product(it->row[r][c], by[c]);
        if (size(sum) > most)
            most = size(sum);
    }
    return most;
}

int main(void) {
    static struct system given, used;
    int solved = 0;
    while (read_system(&given)) {
        fixed found[MOST] = {0};
        used = given;
        printf("%d unknowns:", given.n);
        if (!solve(&used, found)) {
            puts(" no single solution");
            continue;
        }
        for (int k = 0; k < given.n; k++) {
            putchar(' ');
            show_number(found[k]);
        }
        printf("  (within ");
        show_number(fault(&given, found));
        puts(")");
        solved++;
    }
    return solved;
}
