/* A search tree on the heap: entry, the way down, removal, a walk; it ends by exit inside a call. */
/* prints: 10 20 25 30 40 50 60 70 80\n3\n10 20 25 40 50 60 70 80\n */
/* returns: 8 */
int putchar(int);
void *calloc(__SIZE_TYPE__, __SIZE_TYPE__);
void free(void *);
void exit(int);
void abort(void);

struct node {
    long long key;
    struct node *child[2];
};

static struct node **place_of(struct node **tree, long long key) {
    while (*tree && (*tree)->key != key)
        tree = &(*tree)->child[key > (*tree)->key];
    return tree;
}

static void enter(struct node **tree, long long key) {
    struct node **place = place_of(tree, key);
    if (*place) return;
    *place = calloc(1, sizeof **place);
    if (!*place) abort();
    (*place)->key = key;
}

static void leave(struct node **tree, long long key) {
    struct node **place = place_of(tree, key), *gone = *place;
    if (!gone) return;
    if (gone->child[0] && gone->child[1]) {
        struct node **least = &gone->child[1];
        while ((*least)->child[0])
            least = &(*least)->child[0];
        struct node *heir = *least;
        *least = heir->child[1];
        heir->child[0] = gone->child[0];
        heir->child[1] = gone->child[1];
        *place = heir;
    } else {
        *place = gone->child[gone->child[1] != 0];
    }
    free(gone);
}

static int depth(struct node *tree) {
    if (!tree) return -1;
    int left = depth(tree->child[0]), right = depth(tree->child[1]);
    return 1 + (left > right ? left : right);
}

static int count;

static void walk(const struct node *tree) {
    if (!tree) return;
    walk(tree->child[0]);
    if (count++)
        putchar(' ');
    putchar('0' + (int)(tree->key / 10));
    putchar('0' + (int)(tree->key % 10));
    walk(tree->child[1]);
}

int main(void) {
    static const signed char keys[] = {50, 30, 70, 20, 40, 60, 80, 10, 25, 30};
    struct node *tree = 0;
    for (unsigned i = 0; i < sizeof keys; i++)
        enter(&tree, keys[i]);
    walk(tree);
    putchar('\n');
    putchar('0' + depth(tree));
    putchar('\n');
    leave(&tree, 30);
    leave(&tree, 99);
    count = 0;
    walk(tree);
    putchar('\n');
    exit(count);
}
