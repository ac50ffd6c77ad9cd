/* Regular expressions with . [] [^] * + ? | () ^ $ and \ before a sign, as machines without backtracking. */
#ifndef REGEX_H
#define REGEX_H

#include <stddef.h>
#include <stdint.h>

enum op { BYTE, ANY, SET, FRONT, BACK, SPLIT, JUMP, ACCEPT };

struct step {
    enum op op;
    /* The byte, or the number of the set. */
    int value;
    /* Where it goes on, and the second way of a SPLIT. */
    int next, other;
};

enum { STEPS = 400, SETS = 24 };

struct regex {
    struct step steps[STEPS];
    int count, start;
    uint8_t sets[SETS][32];
    int used;
    /* What is wrong with the pattern, and where. */
    const char *fault;
    size_t place;
};

/* Gives 0 where the pattern is none, and says why. */
int regex_compile(struct regex *to, const char *pattern);

/* The first and longest match in a text: its length, or -1, with its place. */
long regex_search(const struct regex *by, const char *text, size_t *place);

#endif
