/* A linked list on the heap: sorted insertion, turning round, removal of the even ones. */
/* prints: 1 2 3 4 5 6 7 8 9\n9 8 7 6 5 4 3 2 1\n9 7 5 3 1\n */
/* returns: 25 */
int putchar(int);
void *malloc(__SIZE_TYPE__);
void free(void *);
void exit(int);

struct node {
    struct node *next;
    int value;
};

static struct node *insert(struct node *list, int value) {
    struct node *fresh = malloc(sizeof *fresh), **place = &list;
    if (!fresh)
        exit(99);
    while (*place && (*place)->value < value)
        place = &(*place)->next;
    fresh->value = value;
    fresh->next = *place;
    *place = fresh;
    return list;
}

static struct node *turn(struct node *list) {
    struct node *turned = 0;
    while (list) {
        struct node *rest = list->next;
        list->next = turned;
        turned = list;
        list = rest;
    }
    return turned;
}

static struct node *without_even(struct node *list) {
    struct node **place = &list;
    while (*place) {
        struct node *here = *place;
        if (here->value % 2 == 0) {
            *place = here->next;
            free(here);
        } else {
            place = &here->next;
        }
    }
    return list;
}

static int show(const struct node *list) {
    int sum = 0;
    for (; list; list = list->next) {
        putchar('0' + list->value);
        putchar(list->next ? ' ' : '\n');
        sum += list->value;
    }
    return sum;
}

int main(void) {
    static const signed char values[] = {5, 3, 9, 1, 7, 2, 8, 6, 4};
    struct node *list = 0;
    for (unsigned i = 0; i < sizeof values; i++)
        list = insert(list, values[i]);
    show(list);
    list = turn(list);
    show(list);
    list = without_even(list);
    return show(list);
}
