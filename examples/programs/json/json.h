/* Values of JSON: whole numbers, texts, truth values, null, lists and objects. */
#ifndef JSON_H
#define JSON_H

#include <stdbool.h>
#include <stddef.h>
#include <stdint.h>

enum kind { JSON_NULL, JSON_FALSE, JSON_TRUE, JSON_NUMBER, JSON_TEXT, JSON_LIST, JSON_OBJECT };

struct value {
    enum kind kind;
    int64_t number;
    /* The text, or the name of a member. */
    char *text, *name;
    /* The first of what is inside, and the next one beside. */
    struct value *inside, *next;
};

struct fault {
    const char *what;
    size_t line, column;
};

/* Reads one value that is the whole text; NULL where it is none, or where memory is missing. */
struct value *json_read(const char *text, struct fault *fault);
void json_free(struct value *it);

void json_write(const struct value *it, int indent);
size_t json_count(const struct value *it);
int json_depth(const struct value *it);

/* The value at a path like `a.0.name`, or NULL. */
const struct value *json_at(const struct value *it, const char *path);

#endif
