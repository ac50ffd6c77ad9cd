/* Patterns by recursive descent. A part is built so that it goes on to a JUMP, whose aim is set when what follows is known. */
#include <ctype.h>
#include <string.h>
#include "regex.h"

/* The machine's first step, and the JUMP at its end. */
struct part {
    int first, last;
};

struct reader {
    struct regex *to;
    const char *pattern, *at;
};

static void alternatives(struct reader *it, struct part *out);

static void fail(struct reader *it, const char *why) {
    if (!it->to->fault) {
        it->to->fault = why;
        it->to->place = (size_t)(it->at - it->pattern);
    }
}

static int add(struct reader *it, enum op op, int value) {
    if (it->to->count == STEPS) {
        fail(it, "too long");
        return 0;
    }
    struct step *step = &it->to->steps[it->to->count];
    step->op = op;
    step->value = value;
    step->next = step->other = -1;
    return it->to->count++;
}

static void single(struct reader *it, struct part *out, enum op op, int value) {
    out->first = add(it, op, value);
    out->last = add(it, JUMP, 0);
    it->to->steps[out->first].next = out->last;
}

static void put(uint8_t set[32], int c) { set[(c & 255) / 8] |= 1 << c % 8; }

static void class(struct reader *it, struct part *out) {
    int negated = 0, number = it->to->used, first = 1;
    if (number == SETS) {
        fail(it, "too many sets");
        return;
    }
    uint8_t *set = it->to->sets[it->to->used++];
    memset(set, 0, 32);
    if (*it->at == '^')
        negated = 1, it->at++;
    while (*it->at && (*it->at != ']' || first)) {
        unsigned char low = *it->at++, high = low;
        first = 0;
        if (it->at[0] == '-' && it->at[1] && it->at[1] != ']') {
            high = it->at[1];
            it->at += 2;
        }
        if (high < low) {
            fail(it, "a range that runs backwards");
            return;
        }
        for (int c = low; c <= high; c++)
            put(set, c);
    }
    if (*it->at++ != ']') {
        it->at--;
        fail(it, "a set that is not closed");
        return;
    }
    if (negated)
        for (int k = 0; k < 32; k++)
            set[k] = ~set[k];
    single(it, out, SET, number);
}

static void atom(struct reader *it, struct part *out) {
    char c = *it->at++;
    switch (c) {
    case '(':
        alternatives(it, out);
        if (*it->at != ')')
            fail(it, "a group that is not closed");
        else
            it->at++;
        break;
    case '[':
        class(it, out);
        break;
    case '.':
        single(it, out, ANY, 0);
        break;
    case '^':
        single(it, out, FRONT, 0);
        break;
    case '$':
        single(it, out, BACK, 0);
        break;
    case '*':
    case '+':
    case '?':
        it->at--;
        fail(it, "nothing to repeat");
        break;
    case '\\':
        if (!*it->at) {
            fail(it, "a backslash at the end");
            break;
        }
        single(it, out, BYTE, *it->at++);
        break;
    default:
        single(it, out, BYTE, c);
    }
}

static void repeated(struct reader *it, struct part *out) {
    atom(it, out);
    while (!it->to->fault && *it->at && strchr("*+?", *it->at)) {
        char how = *it->at++;
        int split = add(it, SPLIT, 0), last = add(it, JUMP, 0);
        struct step *steps = it->to->steps;
        steps[split].next = out->first;
        steps[split].other = last;
        steps[out->last].next = how == '?' ? last : split;
        out->first = how == '+' ? out->first : split;
        out->last = last;
    }
}

static void sequence(struct reader *it, struct part *out) {
    out->first = out->last = add(it, JUMP, 0);
    while (!it->to->fault && *it->at && *it->at != '|' && *it->at != ')') {
        struct part next = {0, 0};
        repeated(it, &next);
        it->to->steps[out->last].next = next.first;
        out->last = next.last;
    }
}

static void alternatives(struct reader *it, struct part *out) {
    sequence(it, out);
    while (!it->to->fault && *it->at == '|') {
        struct part other;
        it->at++;
        sequence(it, &other);
        int split = add(it, SPLIT, 0), last = add(it, JUMP, 0);
        struct step *steps = it->to->steps;
        steps[split].next = out->first;
        steps[split].other = other.first;
        steps[out->last].next = steps[other.last].next = last;
        out->first = split;
        out->last = last;
    }
}

int regex_compile(struct regex *to, const char *pattern) {
    struct reader it = {to, pattern, pattern};
    struct part whole;
    memset(to, 0, sizeof *to);
    alternatives(&it, &whole);
    if (!to->fault && *it.at == ')')
        fail(&it, "a group that was not opened");
    if (to->fault)
        return 0;
    to->start = whole.first;
    to->steps[whole.last].next = add(&it, ACCEPT, 0);
    return to->fault == NULL;
}
