/* The lengths come from a tree, which is built by a heap of its roots. */
#include <stdlib.h>
#include <string.h>
#include "huffman.h"

struct node {
    uint32_t weight;
    int16_t symbol;
    struct node *left, *right;
};

struct heap {
    struct node *roots[SYMBOLS];
    int count;
};

static int lighter(const struct node *a, const struct node *b) {
    if (a->weight != b->weight)
        return a->weight < b->weight;
    return a->symbol < b->symbol;
}

static void push(struct heap *it, struct node *node) {
    int at = it->count++;
    while (at > 0 && lighter(node, it->roots[(at - 1) / 2])) {
        it->roots[at] = it->roots[(at - 1) / 2];
        at = (at - 1) / 2;
    }
    it->roots[at] = node;
}

static struct node *pop(struct heap *it) {
    struct node *first = it->roots[0], *moved = it->roots[--it->count];
    int at = 0;
    for (int child; (child = 2 * at + 1) < it->count; at = child) {
        if (child + 1 < it->count && lighter(it->roots[child + 1], it->roots[child]))
            child++;
        if (!lighter(it->roots[child], moved))
            break;
        it->roots[at] = it->roots[child];
    }
    it->roots[at] = moved;
    return first;
}

static struct node *join(struct node *left, struct node *right) {
    struct node *it = malloc(sizeof *it);
    if (!it)
        abort();
    it->weight = left->weight + right->weight;
    it->symbol = left->symbol < right->symbol ? left->symbol : right->symbol;
    it->left = left;
    it->right = right;
    return it;
}

static void measure(struct code *to, struct node *it, unsigned depth) {
    if (it->left) {
        measure(to, it->left, depth + 1);
        measure(to, it->right, depth + 1);
    } else {
        to->length[it->symbol] = depth > 0 ? depth : 1;
    }
    free(it);
}

/* Codes of one length are numbers in a row. */
static void number(struct code *it) {
    uint32_t next = 0;
    for (unsigned length = 1; length <= LONGEST; length++) {
        for (int s = 0; s < SYMBOLS; s++)
            if (it->length[s] == length)
                it->bits[s] = next++;
        next <<= 1;
    }
}

bool code_from_counts(struct code *to, const uint32_t counts[SYMBOLS]) {
    struct heap heap = {.count = 0};
    memset(to, 0, sizeof *to);
    for (int s = 0; s < SYMBOLS; s++) {
        if (counts[s] == 0)
            continue;
        struct node *leaf = calloc(1, sizeof *leaf);
        if (!leaf)
            return false;
        leaf->weight = counts[s];
        leaf->symbol = (int16_t)s;
        push(&heap, leaf);
    }
    if (heap.count == 0)
        return false;
    while (heap.count > 1) {
        struct node *left = pop(&heap);
        push(&heap, join(left, pop(&heap)));
    }
    measure(to, pop(&heap), 0);
    number(to);
    return true;
}
