/* Compiles and runs the programs of the input, which lines of minus signs part. */
#include <inttypes.h>
#include <stdio.h>
#include <string.h>
#include "bytecode.h"

static int execute(const char *text, bool shown) {
    static struct program program;
    static int32_t variables[NAMES];
    unsigned long steps = 0;
    if (!compile(&program, text)) {
        printf("line %d: %s\n", program.line, program.fault);
        return 0;
    }
    if (shown)
        disassemble(&program);
    memset(variables, 0, sizeof variables);
    static const char *const said[] = {"ended", "no room on the stack", "divided by zero", "too long"};
    enum end end = run(&program, 60000, &steps, variables);
    printf("%s after %lu steps;", said[end], steps);
    for (int k = 0; k < program.variables; k++)
        printf(" %s=%" PRId32, program.names[k], variables[k]);
    putchar('\n');
    return end == ENDED;
}

int main(void) {
    static char text[4000], line[200];
    size_t n = 0;
    int ended = 0, programs = 0;
    while (fgets(line, sizeof line, stdin)) {
        if (strncmp(line, "---", 3) == 0) {
            ended += execute(text, programs++ == 0);
            n = 0;
            text[0] = 0;
            continue;
        }
        if (n + strlen(line) >= sizeof text)
            return 1;
        strcpy(text + n, line);
        n += strlen(line);
    }
    printf("%d of %d programs ended\n", ended, programs);
    return ended;
}
