/* The heap: a stack that grows, a block of zeros, a place that comes back after a free, too large a request. */
/* prints: 0 1 4 9 16 25 36 49 64 81\nzeros same none\n */
/* returns: 10 */
int putchar(int);
int puts(const char *);
void *malloc(__SIZE_TYPE__);
void *calloc(__SIZE_TYPE__, __SIZE_TYPE__);
void free(void *);
void exit(int);
void abort(void);

struct stack {
    int *items;
    unsigned count, room;
};

static void push(struct stack *s, int item) {
    if (s->count == s->room) {
        unsigned room = s->room ? 2 * s->room : 2;
        int *items = malloc(room * sizeof *items);
        if (!items)
            exit(99);
        for (unsigned i = 0; i < s->count; i++)
            items[i] = s->items[i];
        free(s->items);
        s->items = items;
        s->room = room;
    }
    s->items[s->count++] = item;
}

static void number(int n) {
    if (n >= 10)
        number(n / 10);
    putchar('0' + n % 10);
}

static void word(const char *s) {
    while (*s)
        putchar(*s++);
}

int main(void) {
    struct stack s = {0};
    for (int i = 0; i < 10; i++)
        push(&s, i * i);
    for (unsigned i = 0; i < s.count; i++) {
        number(s.items[i]);
        putchar(i + 1 < s.count ? ' ' : '\n');
    }
    unsigned char *zeros = calloc(25, 40);
    if (!zeros)
        abort();
    unsigned sum = 0;
    for (int i = 0; i < 1000; i++)
        sum += zeros[i];
    word(sum == 0 ? "zeros " : "dirt ");
    free(zeros);
    char *volatile first = malloc(100), *volatile kept = malloc(8);
    char *old = first;
    free(first);
    char *volatile again = malloc(90);
    word(again == old ? "same " : "other ");
    free(again);
    free(kept);
    char *volatile large = malloc(0x70000000);
    puts(large ? "room" : "none");
    free(s.items);
    return (int)s.count;
}
