/* Values: given back, counted, found and written. */
#include <inttypes.h>
#include <stdio.h>
#include <stdlib.h>
#include <string.h>
#include "json.h"

void json_free(struct value *it) {
    while (it) {
        struct value *next = it->next;
        json_free(it->inside);
        free(it->text);
        free(it->name);
        free(it);
        it = next;
    }
}

size_t json_count(const struct value *it) {
    size_t n = 1;
    for (const struct value *each = it->inside; each; each = each->next)
        n += json_count(each);
    return n;
}

int json_depth(const struct value *it) {
    int most = 0;
    for (const struct value *each = it->inside; each; each = each->next) {
        int depth = json_depth(each);
        if (depth > most)
            most = depth;
    }
    return most + 1;
}

const struct value *json_at(const struct value *it, const char *path) {
    while (it && *path) {
        size_t n = strcspn(path, ".");
        const struct value *each = it->inside;
        if (it->kind == JSON_LIST) {
            long at = strtol(path, NULL, 10);
            while (each && at-- > 0)
                each = each->next;
        } else {
            while (each && !(each->name && strlen(each->name) == n && strncmp(each->name, path, n) == 0))
                each = each->next;
        }
        it = each;
        path += n + (path[n] == '.');
    }
    return it;
}

static void write_text(const char *text) {
    putchar('"');
    for (; *text; text++) {
        unsigned char c = *text;
        if (c == '"' || c == '\\')
            printf("\\%c", c);
        else if (c == '\n')
            fputs("\\n", stdout);
        else if (c < 32)
            printf("\\u%04x", c);
        else
            putchar(c);
    }
    putchar('"');
}

static void write_group(const struct value *it, int indent, const char *brackets) {
    putchar(brackets[0]);
    for (const struct value *each = it->inside; each; each = each->next) {
        printf("%s\n%*s", each == it->inside ? "" : ",", indent + 2, "");
        if (each->name) {
            write_text(each->name);
            fputs(": ", stdout);
        }
        json_write(each, indent + 2);
    }
    if (it->inside)
        printf("\n%*s", indent, "");
    putchar(brackets[1]);
}

void json_write(const struct value *it, int indent) {
    switch (it->kind) {
    case JSON_NULL:
        fputs("null", stdout);
        break;
    case JSON_FALSE:
        fputs("false", stdout);
        break;
    case JSON_TRUE:
        fputs("true", stdout);
        break;
    case JSON_NUMBER:
        printf("%" PRId64, it->number);
        break;
    case JSON_TEXT:
        write_text(it->text);
        break;
    case JSON_LIST:
        write_group(it, indent, "[]");
        break;
    case JSON_OBJECT:
        write_group(it, indent, "{}");
        break;
    }
}
