/* A small machine with a stack: its program writes the powers of three below 1000, then a word from its data. */
/* prints: 1 3 9 27 81 243 729 \nhalt\n */
/* returns: 71 */
int putchar(int);
void abort(void);

enum code { PUSH, COPY, DROP, ADD, MUL, LESS, JUMP_IF, JUMP, WRITE, LETTER, LOAD, END };

struct machine {
    int stack[16];
    int top, at, done;
};

static const short program[] = {
    PUSH, 1,                                /* 0 */
    COPY, WRITE, PUSH, ' ', LETTER,         /* 2 */
    PUSH, 3, MUL, COPY, PUSH, 1000, LESS,   /* 7 */
    JUMP_IF, 2,                             /* 14 */
    DROP, PUSH, '\n', LETTER,               /* 16 */
    PUSH, 0,                                /* 20 */
    COPY, LOAD, LETTER, PUSH, 1, ADD,       /* 22 */
    COPY, PUSH, 5, LESS, JUMP_IF, 22, END,  /* 28 */
};
static const char letters[] = "halt\n";

static void number(int n) {
    if (n >= 10)
        number(n / 10);
    putchar('0' + n % 10);
}

static void push(struct machine *m, int n) {
    if (m->top == 16)
        abort();
    m->stack[m->top++] = n;
}

static int pop(struct machine *m) {
    if (m->top == 0)
        abort();
    return m->stack[--m->top];
}

static int step(struct machine *m) {
    int a;
    m->done++;
    switch ((enum code)program[m->at++]) {
    case PUSH: push(m, program[m->at++]); break;
    case COPY: a = pop(m); push(m, a); push(m, a); break;
    case DROP: pop(m); break;
    case ADD: a = pop(m); push(m, pop(m) + a); break;
    case MUL: a = pop(m); push(m, pop(m) * a); break;
    case LESS: a = pop(m); push(m, pop(m) < a); break;
    case JUMP_IF: a = program[m->at++]; if (pop(m)) m->at = a; break;
    case JUMP: m->at = program[m->at]; break;
    case WRITE: number(pop(m)); break;
    case LETTER: putchar(pop(m)); break;
    case LOAD: push(m, letters[pop(m)]); break;
    case END: return 0;
    }
    return 1;
}

int main(void) {
    struct machine m = {.top = 0};
    while (step(&m))
        ;
    return m.done - 50;
}
