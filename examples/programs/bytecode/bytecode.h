/* A small language, compiled to byte code and run. Statements end with a semicolon:
   NAME = EXPRESSION; print EXPRESSION, ..; while EXPRESSION { .. }  if EXPRESSION { .. } else { .. } */
#ifndef BYTECODE_H
#define BYTECODE_H

#include <stdbool.h>
#include <stddef.h>
#include <stdint.h>

enum op { OP_END, OP_PUSH, OP_LOAD, OP_STORE, OP_ADD, OP_SUB, OP_MUL, OP_DIV, OP_MOD, OP_LESS, OP_EQUAL, OP_NOT, OP_NEGATE, OP_JUMP, OP_JUMP_IF_NOT, OP_PRINT, OP_LINE, OPS };

enum { CODE = 2000, NAMES = 40, STACK = 64 };

struct program {
    uint8_t code[CODE];
    size_t length;
    char names[NAMES][16];
    int variables;
    /* What is wrong, and in which line. */
    const char *fault;
    int line;
};

enum token { T_END, T_NUMBER, T_NAME, T_SIGN, T_WHILE, T_IF, T_ELSE, T_PRINT };

struct lexer {
    const char *at;
    int line;
    enum token kind;
    int32_t number;
    char name[16];
    /* A sign of one byte, or of two with 256 added for the `=` behind. */
    int sign;
};

void lexer_next(struct lexer *it);

/* Gives whether the text is a program. */
bool compile(struct program *to, const char *text);
void disassemble(const struct program *it);

enum end { ENDED, NO_ROOM, DIVIDED_BY_ZERO, TOO_LONG };

enum end run(const struct program *it, unsigned long most, unsigned long *steps, int32_t *variables);
size_t operand_size(uint8_t op);

#endif
