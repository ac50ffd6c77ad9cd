/* Words are kept as copies. Removing moves later entries of a row back, so that no gap parts a word from its place. */
#include <stdlib.h>
#include <string.h>
#include "table.h"

static uint32_t hash_of(const char *word) {
    uint32_t h = 2166136261u;
    for (; *word; word++)
        h = (h ^ (unsigned char)*word) * 16777619u;
    return h ^ h >> 15;
}

static struct entry *place_of(struct table *it, const char *word, uint32_t hash) {
    size_t at = hash & (it->room - 1);
    for (;; at = (at + 1) & (it->room - 1)) {
        struct entry *entry = &it->entries[at];
        it->looked++;
        if (!entry->word || (entry->hash == hash && strcmp(entry->word, word) == 0))
            return entry;
    }
}

static void grow(struct table *it) {
    struct table wide = {NULL, it->room ? 2 * it->room : 16, it->used, it->looked};
    wide.entries = calloc(wide.room, sizeof *wide.entries);
    if (!wide.entries)
        abort();
    for (size_t k = 0; k < it->room; k++)
        if (it->entries[k].word)
            *place_of(&wide, it->entries[k].word, it->entries[k].hash) = it->entries[k];
    free(it->entries);
    *it = wide;
}

struct entry *table_of(struct table *it, const char *word) {
    if (4 * it->used >= 3 * it->room)
        grow(it);
    uint32_t hash = hash_of(word);
    struct entry *entry = place_of(it, word, hash);
    if (!entry->word) {
        entry->word = strdup(word);
        if (!entry->word)
            abort();
        entry->hash = hash;
        it->used++;
    }
    return entry;
}

void table_remove(struct table *it, const char *word) {
    if (it->room == 0)
        return;
    struct entry *gone = place_of(it, word, hash_of(word));
    if (!gone->word)
        return;
    free(gone->word);
    gone->word = NULL;
    it->used--;
    size_t mask = it->room - 1, gap = (size_t)(gone - it->entries);
    for (size_t at = (gap + 1) & mask; it->entries[at].word; at = (at + 1) & mask) {
        size_t home = it->entries[at].hash & mask;
        if (((at - home) & mask) < ((at - gap) & mask))
            continue;
        it->entries[gap] = it->entries[at];
        it->entries[at].word = NULL;
        gap = at;
    }
}

void table_free(struct table *it) {
    for (size_t k = 0; k < it->room; k++)
        free(it->entries[k].word);
    free(it->entries);
    memset(it, 0, sizeof *it);
}
