/* Sorts the lines of the input. The first line has the options: n by the number in front, r backwards, u each but once, f
   without regard to case, k and a digit by that word. Then come the lines, and how many there were. */
#include <ctype.h>
#include <stdbool.h>
#include <stdio.h>
#include <stdlib.h>
#include <string.h>
#include <strings.h>

static struct {
    bool numeric, backwards, unique, folded;
    int word;
} options;

struct lines {
    char **at;
    size_t count, room;
};

static void *needed(void *block) {
    if (!block) {
        fputs("out of memory\n", stderr);
        exit(EXIT_FAILURE);
    }
    return block;
}

/* A line of any length, without its end; NULL at the end of the input. */
static char *read_line(void) {
    size_t n = 0, room = 16;
    char *line = needed(malloc(room));
    int c;
    while ((c = getc(stdin)) != EOF && c != '\n') {
        if (n + 1 == room)
            line = needed(realloc(line, room *= 2));
        line[n++] = (char)c;
    }
    if (c == EOF && n == 0) {
        free(line);
        return NULL;
    }
    line[n] = 0;
    return line;
}

static void add(struct lines *to, char *line) {
    if (to->count == to->room) {
        to->room = to->room ? 2 * to->room : 4;
        to->at = needed(realloc(to->at, to->room * sizeof *to->at));
    }
    to->at[to->count++] = line;
}

static void read_options(const char *line) {
    for (; *line; line++) {
        switch (*line) {
        case 'n':
            options.numeric = true;
            break;
        case 'r':
            options.backwards = true;
            break;
        case 'u':
            options.unique = true;
            break;
        case 'f':
            options.folded = true;
            break;
        case 'k':
            if (isdigit((unsigned char)line[1]))
                options.word = *++line - '0';
            break;
        default:
            break;
        }
    }
}

/* Where a line's word of the options begins. */
static const char *key(const char *line) {
    for (int k = 1; k < options.word; k++) {
        while (isspace((unsigned char)*line))
            line++;
        while (*line && !isspace((unsigned char)*line))
            line++;
    }
    if (options.word)
        while (isspace((unsigned char)*line))
            line++;
    return line;
}

static int order(const char *a, const char *b) {
    a = key(a), b = key(b);
    if (options.numeric) {
        long x = strtol(a, NULL, 10), y = strtol(b, NULL, 10);
        if (x != y)
            return x < y ? -1 : 1;
    }
    return options.folded ? strcasecmp(a, b) : strcmp(a, b);
}

static int compare(const void *a, const void *b) {
    int it = order(*(char *const *)a, *(char *const *)b);
    return options.backwards ? -it : it;
}

int main(void) {
    struct lines lines = {0};
    char *line = read_line();
    if (!line)
        return 0;
    read_options(line);
    free(line);
    while ((line = read_line()))
        add(&lines, line);
    if (lines.count)
        qsort(lines.at, lines.count, sizeof *lines.at, compare);
    size_t shown = 0;
    for (size_t k = 0; k < lines.count; k++) {
        if (options.unique && k > 0 && order(lines.at[k - 1], lines.at[k]) == 0)
            continue;
        puts(lines.at[k]);
        shown++;
    }
    for (size_t k = 0; k < lines.count; k++)
        free(lines.at[k]);
    free(lines.at);
    printf("%zu of %zu lines\n", shown, lines.count);
    return (int)shown;
}
