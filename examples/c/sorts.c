/* Sorts the same twelve numbers by insertion, by shell gaps and by quick sort. */
/* prints: -9 -4 0 1 2 3 5 8 13 21 34 55\n-9 -4 0 1 2 3 5 8 13 21 34 55\n-9 -4 0 1 2 3 5 8 13 21 34 55\n */
/* returns: 12 */
int putchar(int);

static const int given[12] = {34, -4, 8, 0, 55, 1, 13, -9, 3, 21, 2, 5};

static void number(int n) {
    unsigned u = n;
    if (n < 0) {
        putchar('-');
        u = -u;
    }
    if (u >= 10)
        number(u / 10);
    putchar('0' + u % 10);
}

static void show(const int *a, int n) {
    for (int i = 0; i < n; i++) {
        if (i > 0)
            putchar(' ');
        number(a[i]);
    }
    putchar('\n');
}

static void insertion(int *a, int n) {
    for (int i = 1; i < n; i++) {
        int x = a[i], j = i;
        for (; j > 0 && a[j - 1] > x; j--)
            a[j] = a[j - 1];
        a[j] = x;
    }
}

static void shell(int *a, int n) {
    for (int gap = n / 2; gap > 0; gap /= 2)
        for (int i = gap; i < n; i++)
            for (int j = i; j >= gap && a[j - gap] > a[j]; j -= gap) {
                int t = a[j];
                a[j] = a[j - gap];
                a[j - gap] = t;
            }
}

static void quick(int *low, int *high) {
    if (high - low < 2)
        return;
    int pivot = low[(high - low) / 2], *i = low, *j = high - 1;
    while (i <= j) {
        while (*i < pivot)
            i++;
        while (*j > pivot)
            j--;
        if (i <= j) {
            int t = *i;
            *i++ = *j;
            *j-- = t;
        }
    }
    quick(low, j + 1);
    quick(i, high);
}

int main(void) {
    int a[3][12];
    for (int k = 0; k < 3; k++)
        for (int i = 0; i < 12; i++)
            a[k][i] = given[i];
    insertion(a[0], 12);
    shell(a[1], 12);
    quick(a[2], a[2] + 12);
    for (int k = 0; k < 3; k++)
        show(a[k], 12);
    return 12;
}
