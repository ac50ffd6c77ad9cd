/* Runs all ways at once: a set of steps is what may come next. */
#include <string.h>
#include "regex.h"

struct states {
    int list[STEPS];
    uint8_t has[STEPS];
    int count, accepts;
};

static void clear(struct states *it) {
    memset(it->has, 0, sizeof it->has);
    it->count = it->accepts = 0;
}

/* Adds a step, and what can be met from it without a byte. */
static void enter(struct states *it, const struct regex *by, int step, int front, int back) {
    while (step >= 0 && !it->has[step]) {
        const struct step *at = &by->steps[step];
        it->has[step] = 1;
        switch (at->op) {
        case SPLIT:
            enter(it, by, at->next, front, back);
            step = at->other;
            continue;
        case JUMP:
            step = at->next;
            continue;
        case FRONT:
            if (!front)
                return;
            step = at->next;
            continue;
        case BACK:
            if (!back)
                return;
            step = at->next;
            continue;
        case ACCEPT:
            it->accepts = 1;
            return;
        default:
            it->list[it->count++] = step;
            return;
        }
    }
}

static int takes(const struct regex *by, const struct step *it, unsigned char c) {
    switch (it->op) {
    case BYTE:
        return (unsigned char)it->value == c;
    case ANY:
        return c != '\n';
    case SET:
        return by->sets[it->value][c / 8] >> c % 8 & 1;
    default:
        return 0;
    }
}

/* The longest match from a place, or -1. */
static long match_at(const struct regex *by, const char *text, size_t place) {
    static struct states states[2];
    struct states *now = &states[0], *next = &states[1];
    long longest = -1;
    clear(now);
    enter(now, by, by->start, place == 0, text[place] == 0);
    for (size_t n = 0;; n++) {
        if (now->accepts)
            longest = (long)n;
        unsigned char c = text[place + n];
        if (now->count == 0 || c == 0)
            return longest;
        clear(next);
        for (int k = 0; k < now->count; k++) {
            const struct step *step = &by->steps[now->list[k]];
            if (takes(by, step, c))
                enter(next, by, step->next, 0, text[place + n + 1] == 0);
        }
        struct states *kept = now;
        now = next;
        next = kept;
    }
}

long regex_search(const struct regex *by, const char *text, size_t *place) {
    for (size_t k = 0;; k++) {
        long n = match_at(by, text, k);
        if (n >= 0) {
            *place = k;
            return n;
        }
        if (text[k] == 0)
            return -1;
    }
}
