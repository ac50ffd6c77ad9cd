/* Runs byte code on a stack, and shows it. */
#include <inttypes.h>
#include <stdio.h>
#include "bytecode.h"

static const char *const names[OPS] = {"end",  "push",  "load", "store",  "add",  "sub",         "mul",   "div", "mod",
                                       "less", "equal", "not",  "negate", "jump", "jump-if-not", "print", "line"};

size_t operand_size(uint8_t op) {
    switch (op) {
    case OP_PUSH:
        return 4;
    case OP_LOAD:
    case OP_STORE:
        return 1;
    case OP_JUMP:
    case OP_JUMP_IF_NOT:
        return 2;
    default:
        return 0;
    }
}

static uint32_t operand(const uint8_t *at, size_t size) {
    uint32_t n = 0;
    for (size_t k = size; k-- > 0;)
        n = n << 8 | at[k];
    return n;
}

void disassemble(const struct program *it) {
    for (size_t at = 0; at < it->length;) {
        uint8_t op = it->code[at];
        size_t size = operand_size(op);
        uint32_t n = operand(it->code + at + 1, size);
        printf("%4zu %-12s", at, names[op]);
        if (op == OP_LOAD || op == OP_STORE)
            printf(" %s", it->names[n]);
        else if (size)
            printf(" %" PRId32, (int32_t)n);
        putchar('\n');
        at += 1 + size;
    }
}

enum end run(const struct program *it, unsigned long most, unsigned long *steps, int32_t *variables) {
    int32_t stack[STACK];
    int top = 0;
    const char *between = "";
    for (size_t at = 0;; (*steps)++) {
        uint8_t op = it->code[at];
        size_t size = operand_size(op);
        uint32_t n = operand(it->code + at + 1, size);
        at += 1 + size;
        if (*steps == most)
            return TOO_LONG;
        if (top + 1 >= STACK)
            return NO_ROOM;
        switch ((enum op)op) {
        case OP_END:
        case OPS:
            return ENDED;
        case OP_PUSH:
            stack[top++] = (int32_t)n;
            break;
        case OP_LOAD:
            stack[top++] = variables[n];
            break;
        case OP_STORE:
            variables[n] = stack[--top];
            break;
        case OP_ADD:
            top--;
            stack[top - 1] = (int32_t)((uint32_t)stack[top - 1] + (uint32_t)stack[top]);
            break;
        case OP_SUB:
            top--;
            stack[top - 1] = (int32_t)((uint32_t)stack[top - 1] - (uint32_t)stack[top]);
            break;
        case OP_MUL:
            top--;
            stack[top - 1] = (int32_t)((uint32_t)stack[top - 1] * (uint32_t)stack[top]);
            break;
        case OP_DIV:
        case OP_MOD:
            top--;
            if (stack[top] == 0)
                return DIVIDED_BY_ZERO;
            stack[top - 1] = (int32_t)(op == OP_DIV ? (int64_t)stack[top - 1] / stack[top] : (int64_t)stack[top - 1] % stack[top]);
            break;
        case OP_LESS:
            top--;
            stack[top - 1] = stack[top - 1] < stack[top];
            break;
        case OP_EQUAL:
            top--;
            stack[top - 1] = stack[top - 1] == stack[top];
            break;
        case OP_NOT:
            stack[top - 1] = !stack[top - 1];
            break;
        case OP_NEGATE:
            stack[top - 1] = (int32_t)(0u - (uint32_t)stack[top - 1]);
            break;
        case OP_JUMP:
            at = n;
            break;
        case OP_JUMP_IF_NOT:
            if (!stack[--top])
                at = n;
            break;
        case OP_PRINT:
            printf("%s%" PRId32, between, stack[--top]);
            between = " ";
            break;
        case OP_LINE:
            putchar('\n');
            between = "";
            break;
        }
    }
}
