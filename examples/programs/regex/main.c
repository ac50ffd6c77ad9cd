/* Reads patterns and texts: a line `/PATTERN` sets the pattern, another line is searched with it. */
#include <stdio.h>
#include <stdlib.h>
#include <string.h>
#include "regex.h"

static struct regex regex;

static int set(const char *pattern) {
    printf("/%s/", pattern);
    if (regex_compile(&regex, pattern)) {
        printf("  %d steps, %d sets\n", regex.count, regex.used);
        return 1;
    }
    printf("  %s at %zu\n", regex.fault, regex.place);
    return 0;
}

/* Shows the line with each match in brackets. */
static int show(const char *line) {
    int matches = 0;
    size_t place;
    const char *rest = line;
    char all[300];
    all[0] = 0;
    for (;;) {
        long n = regex_search(&regex, rest, &place);
        if (n < 0 || strlen(all) + strlen(rest) + 4 > sizeof all)
            break;
        strncat(all, rest, place);
        strcat(all, "[");
        strncat(all, rest + place, (size_t)n);
        strcat(all, "]");
        matches++;
        rest += place + n;
        if (n == 0 || *rest == 0 || *line == 0)
            break;
        if (regex.steps[regex.start].op == FRONT)
            break;
    }
    strcat(all, rest);
    printf("  %s%s\n", matches ? "" : "- ", all);
    return matches;
}

int main(void) {
    char line[200];
    int ready = 0, matches = 0, refused = 0;
    while (fgets(line, sizeof line, stdin)) {
        line[strcspn(line, "\n")] = 0;
        if (line[0] == '/') {
            ready = set(line + 1);
            refused += !ready;
        } else if (ready) {
            matches += show(line);
        }
    }
    printf("%d matches, %d patterns refused\n", matches, refused);
    return matches;
}
