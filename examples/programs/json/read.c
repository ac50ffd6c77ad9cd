/* Reading by recursive descent, to a depth of 40. */
#include <ctype.h>
#include <stdlib.h>
#include <string.h>
#include "json.h"

enum { DEEPEST = 40 };

struct reader {
    const char *text, *at;
    struct fault *fault;
};

static struct value *refuse(struct reader *it, const char *what) {
    if (!it->fault->what) {
        it->fault->what = what;
        it->fault->line = it->fault->column = 1;
        for (const char *p = it->text; p < it->at; p++) {
            if (*p == '\n')
                it->fault->line++, it->fault->column = 1;
            else
                it->fault->column++;
        }
    }
    return NULL;
}

static void skip(struct reader *it) {
    while (*it->at == ' ' || *it->at == '\t' || *it->at == '\n' || *it->at == '\r')
        it->at++;
}

static struct value *made(struct reader *it, enum kind kind) {
    struct value *value = calloc(1, sizeof *value);
    if (!value)
        return refuse(it, "out of memory");
    value->kind = kind;
    return value;
}

static int hexadecimal(struct reader *it) {
    int n = 0;
    for (int k = 0; k < 4; k++) {
        unsigned char c = *it->at;
        if (!isxdigit(c))
            return -1;
        n = 16 * n + (isdigit(c) ? c - '0' : tolower(c) - 'a' + 10);
        it->at++;
    }
    return n;
}

/* Spells a sign of up to 16 bits as UTF-8. */
static char *spell(char *to, int sign) {
    if (sign < 0x80) {
        *to++ = (char)sign;
    } else if (sign < 0x800) {
        *to++ = (char)(0xC0 | sign >> 6);
        *to++ = (char)(0x80 | (sign & 0x3F));
    } else {
        *to++ = (char)(0xE0 | sign >> 12);
        *to++ = (char)(0x80 | (sign >> 6 & 0x3F));
        *to++ = (char)(0x80 | (sign & 0x3F));
    }
    return to;
}

static char *string(struct reader *it) {
    const char *end = it->at;
    while (*end && *end != '"')
        end += *end == '\\' && end[1] ? 2 : 1;
    char *text = malloc((size_t)(end - it->at) + 1), *to = text;
    if (!text) {
        refuse(it, "out of memory");
        return NULL;
    }
    while (*it->at != '"') {
        unsigned char c = *it->at;
        if (c < 32) {
            refuse(it, c ? "a control byte in a text" : "a text that is not closed");
            free(text);
            return NULL;
        }
        it->at++;
        if (c != '\\') {
            *to++ = (char)c;
            continue;
        }
        static const char from[] = "\"\\/bfnrt", meant[] = "\"\\/\b\f\n\r\t";
        const char *found = *it->at ? strchr(from, *it->at) : NULL;
        if (found) {
            *to++ = meant[found - from];
            it->at++;
            continue;
        }
        int sign = *it->at == 'u' ? (it->at++, hexadecimal(it)) : -1;
        if (sign < 0) {
            refuse(it, "an escape that is none");
            free(text);
            return NULL;
        }
        to = spell(to, sign);
    }
    it->at++;
    *to = 0;
    return text;
}

static struct value *number(struct reader *it) {
    char *end;
    const char *digits = it->at + (*it->at == '-');
    if (!isdigit((unsigned char)*digits) || (*digits == '0' && isdigit((unsigned char)digits[1])))
        return refuse(it, "a number that is none");
    int64_t n = strtoll(it->at, &end, 10);
    if (*end == '.' || *end == 'e' || *end == 'E')
        return refuse(it, "a number that is not whole");
    it->at = end;
    struct value *value = made(it, JSON_NUMBER);
    if (value)
        value->number = n;
    return value;
}

static struct value *word(struct reader *it, const char *text, enum kind kind) {
    if (strncmp(it->at, text, strlen(text)) != 0)
        return refuse(it, "a word that is none");
    it->at += strlen(text);
    return made(it, kind);
}

static struct value *value(struct reader *it, int depth);

/* A list or an object, behind its bracket. */
static struct value *group(struct reader *it, enum kind kind, char closing, int depth) {
    struct value *whole = made(it, kind), **last = whole ? &whole->inside : NULL;
    if (!whole)
        return NULL;
    skip(it);
    if (*it->at == closing) {
        it->at++;
        return whole;
    }
    for (;;) {
        char *name = NULL;
        skip(it);
        if (kind == JSON_OBJECT) {
            if (*it->at != '"') {
                refuse(it, "a member without a name");
                break;
            }
            it->at++;
            if (!(name = string(it)))
                break;
            skip(it);
            if (*it->at != ':') {
                refuse(it, "a name without a colon");
                free(name);
                break;
            }
            it->at++;
        }
        if (!(*last = value(it, depth + 1))) {
            free(name);
            break;
        }
        (*last)->name = name;
        last = &(*last)->next;
        skip(it);
        if (*it->at == closing) {
            it->at++;
            return whole;
        }
        if (*it->at != ',') {
            refuse(it, "neither a comma nor an end");
            break;
        }
        it->at++;
    }
    json_free(whole);
    return NULL;
}

static struct value *value(struct reader *it, int depth) {
    struct value *found;
    if (depth > DEEPEST)
        return refuse(it, "too deep");
    skip(it);
    switch (*it->at) {
    case '{':
        it->at++;
        return group(it, JSON_OBJECT, '}', depth);
    case '[':
        it->at++;
        return group(it, JSON_LIST, ']', depth);
    case '"':
        it->at++;
        found = made(it, JSON_TEXT);
        if (found && !(found->text = string(it))) {
            json_free(found);
            found = NULL;
        }
        return found;
    case 't':
        return word(it, "true", JSON_TRUE);
    case 'f':
        return word(it, "false", JSON_FALSE);
    case 'n':
        return word(it, "null", JSON_NULL);
    case 0:
        return refuse(it, "the end");
    default:
        return number(it);
    }
}

struct value *json_read(const char *text, struct fault *fault) {
    struct reader it = {text, text, fault};
    fault->what = NULL;
    struct value *whole = value(&it, 0);
    if (!whole)
        return NULL;
    skip(&it);
    if (*it.at) {
        refuse(&it, "more than one value");
        json_free(whole);
        return NULL;
    }
    return whole;
}
