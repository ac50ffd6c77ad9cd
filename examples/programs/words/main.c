/* Counts the words of the input, leaves out the most usual ones, and shows the rest: by how often, then by the alphabet. */
#include <stdio.h>
#include <stdlib.h>
#include <string.h>
#include "split.h"
#include "table.h"

static const char *const usual[] = {"the", "and", "of", "a", "to", "in", "is", "it", "that"};

static int by_count(const void *a, const void *b) {
    const struct entry *x = *(struct entry *const *)a, *y = *(struct entry *const *)b;
    if (x->count != y->count)
        return x->count < y->count ? 1 : -1;
    return strcmp(x->word, y->word);
}

static int by_word(const void *key, const void *element) {
    return strcmp(key, (*(struct entry *const *)element)->word);
}

static int by_alphabet(const void *a, const void *b) {
    return strcmp((*(struct entry *const *)a)->word, (*(struct entry *const *)b)->word);
}

static struct entry **listed(const struct table *it) {
    struct entry **list = malloc(it->used * sizeof *list);
    size_t n = 0;
    if (!list)
        abort();
    for (size_t k = 0; k < it->room; k++)
        if (it->entries[k].word)
            list[n++] = &it->entries[k];
    return list;
}

static void show(struct entry **list, size_t n) {
    for (size_t k = 0; k < n && k < 15; k++)
        printf("%4u  %-14.14s first in line %u\n", list[k]->count, list[k]->word, list[k]->first);
}

static void histogram(struct entry **list, size_t n) {
    unsigned lengths[12] = {0};
    for (size_t k = 0; k < n; k++) {
        size_t length = strlen(list[k]->word);
        lengths[length < 12 ? length : 11] += list[k]->count;
    }
    for (int k = 1; k < 12; k++) {
        printf("%2d%c ", k, k == 11 ? '+' : ' ');
        for (unsigned i = 0; i < lengths[k]; i += 4)
            putchar('*');
        printf(" %u\n", lengths[k]);
    }
}

int main(void) {
    struct table table = {0};
    char line[400], word[24];
    unsigned lines = 0, words = 0;
    while (fgets(line, sizeof line, stdin)) {
        lines++;
        for (const char *at = line; (at = next_word(at, word, sizeof word));) {
            struct entry *entry = table_of(&table, word);
            if (entry->count++ == 0)
                entry->first = lines;
            words++;
        }
    }
    printf("%u lines, %u words, %zu different\n", lines, words, table.used);
    for (size_t k = 0; k < sizeof usual / sizeof *usual; k++)
        table_remove(&table, usual[k]);
    struct entry **list = listed(&table);
    qsort(list, table.used, sizeof *list, by_count);
    show(list, table.used);
    histogram(list, table.used);
    qsort(list, table.used, sizeof *list, by_alphabet);
    struct entry **found = bsearch("machine", list, table.used, sizeof *list, by_word);
    printf("machine: %s\n", found ? "there" : "not there");
    if (table.used)
        printf("from %s to %s\n", list[0]->word, list[table.used - 1]->word);
    int status = (int)table.used % 100;
    free(list);
    table_free(&table);
    return status;
}
