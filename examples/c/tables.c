/* Global tables: structs that point to structs, partial lists, strings, addresses with an offset, a packed record. */
/* prints: mon tue wed\n3 28 0 31\nleaf leaf root\ncd 6\n7 0 9 258\n */
/* returns: 62 */
int putchar(int);

struct tree {
    const char *name;
    const struct tree *left, *right;
};
struct __attribute__((packed)) packed {
    unsigned char tag;
    unsigned short number;
    unsigned char end;
};

static const char *const days[] = {"mon", "tue", "wed"};
static const unsigned char month[12] = {31, 28, 31, [10] = 30, 31};
static const struct tree leaf = {"leaf", 0, 0};
static const struct tree root = {"root", &leaf, &leaf};
static const char letters[] = "abcdef";
static const char *const middle = &letters[2];
static int sums[4] = {1, 2};
static int *const last = &sums[3];
static struct packed packed[2] = {{7, 0, 9}, {0, 0x102, 0}};
const struct tree *const forest[2][2] = {{&leaf, 0}, {0, &root}};

static void word(const char *s) {
    while (*s)
        putchar(*s++);
}

static void number(int n) {
    if (n >= 10)
        number(n / 10);
    putchar('0' + n % 10);
}

static void walk(const struct tree *t) {
    if (!t)
        return;
    walk(t->left);
    walk(t->right);
    word(t->name);
    putchar(t == &root ? '\n' : ' ');
}

int main(void) {
    for (int i = 0; i < 3; i++) {
        word(days[i]);
        putchar(i < 2 ? ' ' : '\n');
    }
    *last = sums[0] + sums[1];
    const int line[4] = {sums[3], month[1], month[5], month[11]};
    for (int i = 0; i < 4; i++) {
        number(line[i]);
        putchar(i < 3 ? ' ' : '\n');
    }
    walk(forest[1][1]);
    putchar(middle[0]);
    putchar(middle[1]);
    putchar(' ');
    number(sizeof letters - 1);
    putchar('\n');
    const int fields[4] = {packed[0].tag, packed[0].number, packed[0].end, packed[1].number};
    for (int i = 0; i < 4; i++) {
        number(fields[i]);
        putchar(i < 3 ? ' ' : '\n');
    }
    return month[0] + month[2];
}
