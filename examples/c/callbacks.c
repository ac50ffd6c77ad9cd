/* Function pointers: a table of operators, a map and a fold, a comparison handed in. */
/* prints: 12 4 32 2 0\n1 4 9 16 25 36\n91\n6 5 4 3 2 1\n */
/* returns: 91 */
int putchar(int);

typedef int (*binary)(int, int);

static int add(int a, int b) { return a + b; }
static int sub(int a, int b) { return a - b; }
static int mul(int a, int b) { return a * b; }
static int quotient(int a, int b) { return a / b; }
static int rest(int a, int b) { return a % b; }
static int later(int a, int b) { return b > a; }
static int square(int a) { return a * a; }

static const binary table[5] = {add, sub, mul, quotient, rest};

static void number(int n) {
    if (n >= 10)
        number(n / 10);
    putchar('0' + n % 10);
}

static void show(const int *a, int n) {
    for (int i = 0; i < n; i++) {
        number(a[i]);
        putchar(i + 1 < n ? ' ' : '\n');
    }
}

static void map(int *to, const int *from, int n, int (*f)(int)) {
    for (int i = 0; i < n; i++)
        to[i] = f(from[i]);
}

static int fold(const int *a, int n, int start, binary f) {
    while (n--)
        start = f(start, *a++);
    return start;
}

static void sort(int *a, int n, binary wrong) {
    for (int i = 0; i < n; i++)
        for (int j = 0; j + 1 < n; j++)
            if (wrong(a[j], a[j + 1])) {
                int t = a[j];
                a[j] = a[j + 1];
                a[j + 1] = t;
            }
}

int main(void) {
    int results[5], numbers[6] = {1, 2, 3, 4, 5, 6}, squares[6];
    for (int i = 0; i < 5; i++)
        results[i] = table[i](8, 4);
    show(results, 5);
    map(squares, numbers, 6, square);
    show(squares, 6);
    int all = fold(squares, 6, 0, add);
    show(&all, 1);
    sort(numbers, 6, later);
    show(numbers, 6);
    return all;
}
