/* Structs by pointer: nested ones, arrays of them, fields of all widths. */
/* prints: tea 450\nrice 1290\nsalt 100\nall 1840\n */
/* returns: 58 */
int putchar(int);

struct price {
    short each;
    unsigned char count;
};
struct item {
    char name[5];
    struct price price;
    long long total;
    struct item *next;
};
struct shop {
    struct item items[3];
    struct item *first;
    _Bool open;
};

static struct shop shop;

static void text(const char *s) {
    while (*s)
        putchar(*s++);
}

static void number(long long n) {
    if (n >= 10)
        number(n / 10);
    putchar('0' + (int)(n % 10));
}

static void fill(struct item *item, const char *name, short each, unsigned char count) {
    int i = 0;
    for (; name[i] && i < 4; i++)
        item->name[i] = name[i];
    item->name[i] = 0;
    item->price.each = each;
    item->price.count = count;
    item->total = (long long)each * count;
}

static long long sum(const struct shop *s) {
    long long all = 0;
    for (const struct item *i = s->first; i; i = i->next)
        all += i->total;
    return all;
}

int main(void) {
    fill(&shop.items[0], "tea", 150, 3);
    fill(&shop.items[1], "rice", 129, 10);
    fill(&shop.items[2], "salt", 100, 1);
    for (int i = 0; i < 2; i++)
        shop.items[i].next = &shop.items[i + 1];
    shop.first = shop.items;
    shop.open = shop.first != 0;
    for (struct item *i = shop.first; shop.open && i; i = i->next) {
        text(i->name);
        putchar(' ');
        number(i->total);
        putchar('\n');
    }
    struct item copy = shop.items[1];
    copy.total = sum(&shop);
    text("all ");
    number(copy.total);
    putchar('\n');
    return (int)(copy.total - 1782);
}
