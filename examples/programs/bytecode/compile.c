/* Compiles by recursive descent, each rule as it is read. */
#include <string.h>
#include "bytecode.h"

struct compiler {
    struct lexer lexer;
    struct program *to;
    int depth;
};

static void fail(struct compiler *it, const char *why) {
    if (!it->to->fault) {
        it->to->fault = why;
        it->to->line = it->lexer.line;
    }
    it->lexer.kind = T_END;
}

static void emit(struct compiler *it, unsigned byte) {
    if (it->to->length == CODE) {
        fail(it, "too much code");
        return;
    }
    it->to->code[it->to->length++] = (uint8_t)byte;
}

static void emit_number(struct compiler *it, uint32_t n) {
    emit(it, OP_PUSH);
    for (int k = 0; k < 4; k++)
        emit(it, n >> 8 * k & 255);
}

/* A jump whose aim is set later; gives where. */
static size_t emit_jump(struct compiler *it, enum op op) {
    emit(it, op);
    emit(it, 0);
    emit(it, 0);
    return it->to->length;
}

static void aim(struct compiler *it, size_t behind, size_t at) {
    if (it->to->fault)
        return;
    it->to->code[behind - 2] = at & 255;
    it->to->code[behind - 1] = (uint8_t)(at >> 8);
}

static bool is_sign(const struct compiler *it, int sign) { return it->lexer.kind == T_SIGN && it->lexer.sign == sign; }

static bool accept(struct compiler *it, int sign) {
    if (!is_sign(it, sign))
        return false;
    lexer_next(&it->lexer);
    return true;
}

static void expect(struct compiler *it, int sign, const char *why) {
    if (!accept(it, sign))
        fail(it, why);
}

static int variable(struct compiler *it, const char *name) {
    for (int k = 0; k < it->to->variables; k++)
        if (strcmp(it->to->names[k], name) == 0)
            return k;
    if (it->to->variables == NAMES) {
        fail(it, "too many names");
        return 0;
    }
    strcpy(it->to->names[it->to->variables], name);
    return it->to->variables++;
}

static void expression(struct compiler *it);

static void primary(struct compiler *it) {
    if (++it->depth > 30)
        fail(it, "too deep");
    if (it->lexer.kind == T_NUMBER) {
        emit_number(it, (uint32_t)it->lexer.number);
        lexer_next(&it->lexer);
    } else if (it->lexer.kind == T_NAME) {
        emit(it, OP_LOAD);
        emit(it, (unsigned)variable(it, it->lexer.name));
        lexer_next(&it->lexer);
    } else if (accept(it, '(')) {
        expression(it);
        expect(it, ')', "a bracket is not closed");
    } else if (accept(it, '-')) {
        primary(it);
        emit(it, OP_NEGATE);
    } else if (accept(it, '!')) {
        primary(it);
        emit(it, OP_NOT);
    } else {
        fail(it, "an expression is missing");
    }
    it->depth--;
}

static void product(struct compiler *it) {
    primary(it);
    for (;;) {
        enum op op = is_sign(it, '*') ? OP_MUL : is_sign(it, '/') ? OP_DIV : is_sign(it, '%') ? OP_MOD : OP_END;
        if (op == OP_END)
            return;
        lexer_next(&it->lexer);
        primary(it);
        emit(it, op);
    }
}

static void sum(struct compiler *it) {
    product(it);
    for (;;) {
        enum op op = is_sign(it, '+') ? OP_ADD : is_sign(it, '-') ? OP_SUB : OP_END;
        if (op == OP_END)
            return;
        lexer_next(&it->lexer);
        product(it);
        emit(it, op);
    }
}

static void expression(struct compiler *it) {
    sum(it);
    int sign = it->lexer.kind == T_SIGN ? it->lexer.sign : 0;
    if (sign != '<' && sign != '=' + 256 && sign != '!' + 256 && sign != '>' + 256)
        return;
    lexer_next(&it->lexer);
    sum(it);
    emit(it, sign == '<' || sign == '>' + 256 ? OP_LESS : OP_EQUAL);
    if (sign == '!' + 256 || sign == '>' + 256)
        emit(it, OP_NOT);
}

static void statement(struct compiler *it);

static void block(struct compiler *it) {
    expect(it, '{', "a block is missing");
    while (it->lexer.kind != T_END && !is_sign(it, '}'))
        statement(it);
    expect(it, '}', "a block is not closed");
}

static void loop(struct compiler *it) {
    size_t begin = it->to->length;
    expression(it);
    size_t out = emit_jump(it, OP_JUMP_IF_NOT);
    block(it);
    aim(it, emit_jump(it, OP_JUMP), begin);
    aim(it, out, it->to->length);
}

static void choice(struct compiler *it) {
    expression(it);
    size_t out = emit_jump(it, OP_JUMP_IF_NOT);
    block(it);
    if (it->lexer.kind == T_ELSE) {
        lexer_next(&it->lexer);
        size_t end = emit_jump(it, OP_JUMP);
        aim(it, out, it->to->length);
        block(it);
        out = end;
    }
    aim(it, out, it->to->length);
}

static void statement(struct compiler *it) {
    switch (it->lexer.kind) {
    case T_WHILE:
        lexer_next(&it->lexer);
        loop(it);
        return;
    case T_IF:
        lexer_next(&it->lexer);
        choice(it);
        return;
    case T_PRINT:
        do {
            lexer_next(&it->lexer);
            expression(it);
            emit(it, OP_PRINT);
        } while (is_sign(it, ','));
        emit(it, OP_LINE);
        expect(it, ';', "a semicolon is missing");
        return;
    case T_NAME: {
        int to = variable(it, it->lexer.name);
        lexer_next(&it->lexer);
        expect(it, '=', "neither a statement nor an assignment");
        expression(it);
        emit(it, OP_STORE);
        emit(it, (unsigned)to);
        expect(it, ';', "a semicolon is missing");
        return;
    }
    default:
        fail(it, "a statement is missing");
    }
}

bool compile(struct program *to, const char *text) {
    struct compiler it = {{text, 1, T_END, 0, "", 0}, to, 0};
    memset(to, 0, sizeof *to);
    lexer_next(&it.lexer);
    while (it.lexer.kind != T_END)
        statement(&it);
    emit(&it, OP_END);
    return to->fault == NULL;
}
