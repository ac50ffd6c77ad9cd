/* Reads texts that are parted by lines with a single dot, and shows each: written anew, or what is wrong with it. Lines behind
   a text that begin with `?` ask for a path. */
#include <stdio.h>
#include <stdlib.h>
#include <string.h>
#include "json.h"

struct text {
    char *bytes;
    size_t length, room;
};

static void append(struct text *to, const char *line) {
    size_t n = strlen(line);
    if (to->length + n + 1 > to->room) {
        to->room = 2 * (to->length + n + 1);
        to->bytes = realloc(to->bytes, to->room);
        if (!to->bytes)
            exit(2);
    }
    memcpy(to->bytes + to->length, line, n + 1);
    to->length += n;
}

static void answer(const struct value *whole, char *path) {
    path[strcspn(path, "\n")] = 0;
    const struct value *found = json_at(whole, path);
    printf("? %s = ", path);
    if (found)
        json_write(found, 0);
    else
        fputs("nothing", stdout);
    putchar('\n');
}

/* Gives whether the text was one value. */
static int show(const struct text *it, char asked[][80], int questions) {
    struct fault fault;
    struct value *whole = json_read(it->length ? it->bytes : "", &fault);
    if (!whole) {
        printf("refused in line %zu, column %zu: %s\n", fault.line, fault.column, fault.what);
        return 0;
    }
    json_write(whole, 0);
    printf("\n%zu values, %d deep\n", json_count(whole), json_depth(whole));
    for (int k = 0; k < questions; k++)
        answer(whole, asked[k]);
    json_free(whole);
    return 1;
}

int main(void) {
    static char asked[8][80];
    char line[160];
    struct text text = {NULL, 0, 0};
    int questions = 0, read = 0;
    while (fgets(line, sizeof line, stdin)) {
        if (strcmp(line, ".\n") == 0) {
            read += show(&text, asked, questions);
            text.length = 0;
            questions = 0;
        } else if (line[0] == '?' && questions < 8) {
            strncpy(asked[questions], line + 1, sizeof asked[0] - 1);
            questions++;
        } else {
            append(&text, line);
        }
    }
    free(text.bytes);
    return read;
}
