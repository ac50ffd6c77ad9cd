/* Words, numbers and signs. */
#include <ctype.h>
#include <stdlib.h>
#include <string.h>
#include "bytecode.h"

static const struct {
    const char *word;
    enum token kind;
} words[] = {{"while", T_WHILE}, {"if", T_IF}, {"else", T_ELSE}, {"print", T_PRINT}};

static void skip(struct lexer *it) {
    for (;;) {
        while (isspace((unsigned char)*it->at))
            it->line += *it->at++ == '\n';
        if (*it->at != '#')
            return;
        while (*it->at && *it->at != '\n')
            it->at++;
    }
}

void lexer_next(struct lexer *it) {
    skip(it);
    if (*it->at == 0) {
        it->kind = T_END;
    } else if (isdigit((unsigned char)*it->at)) {
        char *end;
        it->kind = T_NUMBER;
        it->number = (int32_t)strtoul(it->at, &end, 10);
        it->at = end;
    } else if (isalpha((unsigned char)*it->at)) {
        size_t n = 0;
        it->kind = T_NAME;
        for (; isalnum((unsigned char)*it->at); it->at++)
            if (n + 1 < sizeof it->name)
                it->name[n++] = *it->at;
        it->name[n] = 0;
        for (size_t k = 0; k < sizeof words / sizeof *words; k++)
            if (strcmp(it->name, words[k].word) == 0)
                it->kind = words[k].kind;
    } else {
        it->kind = T_SIGN;
        it->sign = (unsigned char)*it->at++;
        if (*it->at == '=' && strchr("=<>!", it->sign)) {
            it->sign += 256;
            it->at++;
        }
    }
}
