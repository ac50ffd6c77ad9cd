/* A table of words with numbers, by open addressing. */
#ifndef TABLE_H
#define TABLE_H

#include <stddef.h>
#include <stdint.h>

struct entry {
    char *word;
    uint32_t hash;
    unsigned count, first;
};

struct table {
    struct entry *entries;
    size_t room, used;
    /* How many places were looked at, in all. */
    unsigned long looked;
};

/* The entry of a word, which is made where it is new. */
struct entry *table_of(struct table *it, const char *word);
void table_remove(struct table *it, const char *word);
void table_free(struct table *it);

#endif
