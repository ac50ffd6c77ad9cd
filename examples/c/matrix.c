/* Matrices: product, transposition, a power by squaring, a trace. */
/* prints: 58 64\n139 154\n\n58 139\n64 154\n\n89 55\n55 34\n\n */
/* returns: 123 */
int putchar(int);

struct matrix {
    int rows, columns;
    int at[3][3];
};

static const struct matrix a = {2, 3, {{1, 2, 3}, {4, 5, 6}}};
static const struct matrix b = {3, 2, {{7, 8}, {9, 10}, {11, 12}}};

static void number(int n) {
    if (n >= 10)
        number(n / 10);
    putchar('0' + n % 10);
}

static void show(const struct matrix *m) {
    for (int i = 0; i < m->rows; i++)
        for (int j = 0; j < m->columns; j++) {
            number(m->at[i][j]);
            putchar(j + 1 < m->columns ? ' ' : '\n');
        }
    putchar('\n');
}

static void product(struct matrix *to, const struct matrix *x, const struct matrix *y) {
    struct matrix made = {x->rows, y->columns, {{0}}};
    for (int i = 0; i < x->rows; i++)
        for (int j = 0; j < y->columns; j++)
            for (int k = 0; k < x->columns; k++)
                made.at[i][j] += x->at[i][k] * y->at[k][j];
    *to = made;
}

static void transpose(struct matrix *to, const struct matrix *from) {
    to->rows = from->columns;
    to->columns = from->rows;
    for (int i = 0; i < from->rows; i++)
        for (int j = 0; j < from->columns; j++)
            to->at[j][i] = from->at[i][j];
}

int main(void) {
    struct matrix c, d, power = {2, 2, {{1, 0}, {0, 1}}}, base = {2, 2, {{1, 1}, {1, 0}}};
    product(&c, &a, &b);
    show(&c);
    transpose(&d, &c);
    show(&d);
    for (unsigned n = 10; n; n /= 2) {
        if (n & 1)
            product(&power, &power, &base);
        product(&base, &base, &base);
    }
    show(&power);
    return power.at[0][0] + power.at[1][1];
}
