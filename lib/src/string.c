/* Strings. */
#include <ctype.h>
#include <stdlib.h>
#include <string.h>

size_t strlen(const char *at) {
    const char *s = at;
    while (*s)
        s++;
    return s - at;
}

size_t strnlen(const char *at, size_t n) {
    size_t k = 0;
    while (k < n && at[k])
        k++;
    return k;
}

char *stpcpy(char *__restrict to, const char *__restrict from) {
    while ((*to = *from++))
        to++;
    return to;
}

char *stpncpy(char *__restrict to, const char *__restrict from, size_t n) {
    size_t k = strnlen(from, n);
    memcpy(to, from, k);
    memset(to + k, 0, n - k);
    return to + k;
}

char *strcpy(char *__restrict to, const char *__restrict from) {
    stpcpy(to, from);
    return to;
}

char *strncpy(char *__restrict to, const char *__restrict from, size_t n) {
    stpncpy(to, from, n);
    return to;
}

char *strcat(char *__restrict to, const char *__restrict from) {
    stpcpy(to + strlen(to), from);
    return to;
}

char *strncat(char *__restrict to, const char *__restrict from, size_t n) {
    char *end = to + strlen(to);
    size_t k = strnlen(from, n);
    memcpy(end, from, k);
    end[k] = 0;
    return to;
}

int strcmp(const char *a, const char *b) {
    const unsigned char *s = (const unsigned char *)a, *t = (const unsigned char *)b;
    while (*s && *s == *t)
        s++, t++;
    return *s < *t ? -1 : *s > *t;
}

int strncmp(const char *a, const char *b, size_t n) {
    const unsigned char *s = (const unsigned char *)a, *t = (const unsigned char *)b;
    while (n > 0 && *s && *s == *t)
        s++, t++, n--;
    return n == 0 ? 0 : *s < *t ? -1 : *s > *t;
}

int strncasecmp(const char *a, const char *b, size_t n) {
    const unsigned char *s = (const unsigned char *)a, *t = (const unsigned char *)b;
    while (n > 0 && *s && tolower(*s) == tolower(*t))
        s++, t++, n--;
    return n == 0 ? 0 : tolower(*s) - tolower(*t);
}

int strcasecmp(const char *a, const char *b) { return strncasecmp(a, b, (size_t)-1); }

char *strchrnul(const char *at, int c) {
    while (*at && *at != (char)c)
        at++;
    return (char *)at;
}

char *strchr(const char *at, int c) {
    at = strchrnul(at, c);
    return *at == (char)c ? (char *)at : NULL;
}

char *strrchr(const char *at, int c) {
    const char *found = NULL;
    for (;; at++) {
        if (*at == (char)c)
            found = at;
        if (!*at)
            return (char *)found;
    }
}

char *index(const char *at, int c) { return strchr(at, c); }
char *rindex(const char *at, int c) { return strrchr(at, c); }

/* How many bytes from the front are, or are not, in the set. */
static size_t span(const char *at, const char *set, int within) {
    unsigned char has[256];
    size_t k = 0;
    memset(has, 0, sizeof has);
    while (*set)
        has[(unsigned char)*set++] = 1;
    while (at[k] && has[(unsigned char)at[k]] == within)
        k++;
    return k;
}

size_t strspn(const char *at, const char *set) { return span(at, set, 1); }
size_t strcspn(const char *at, const char *stops) { return span(at, stops, 0); }

char *strpbrk(const char *at, const char *stops) {
    at += strcspn(at, stops);
    return *at ? (char *)at : NULL;
}

char *strstr(const char *in, const char *what) {
    size_t n = strlen(what);
    if (n == 0)
        return (char *)in;
    for (; (in = strchr(in, *what)); in++)
        if (strncmp(in, what, n) == 0)
            return (char *)in;
    return NULL;
}

char *strcasestr(const char *in, const char *what) {
    size_t n = strlen(what);
    for (;; in++) {
        if (strncasecmp(in, what, n) == 0)
            return (char *)in;
        if (!*in)
            return NULL;
    }
}

void *memmem(const void *in, size_t n, const void *what, size_t m) {
    for (const char *at = in; m <= n; at++, n--)
        if (memcmp(at, what, m) == 0)
            return (void *)at;
    return NULL;
}

char *strsep(char **__restrict rest, const char *__restrict stops) {
    char *at = *rest;
    if (!at)
        return NULL;
    char *end = at + strcspn(at, stops);
    *rest = *end ? end + 1 : NULL;
    *end = 0;
    return at;
}

char *strtok_r(char *__restrict at, const char *__restrict stops, char **__restrict rest) {
    if (!at)
        at = *rest;
    at += strspn(at, stops);
    char *end = at + strcspn(at, stops);
    *rest = *end ? end + 1 : end;
    if (end == at)
        return NULL;
    *end = 0;
    return at;
}

char *strtok(char *__restrict at, const char *__restrict stops) {
    static char *rest;
    return strtok_r(at, stops, &rest);
}

char *strndup(const char *from, size_t n) {
    size_t k = strnlen(from, n);
    char *to = malloc(k + 1);
    if (!to)
        return NULL;
    memcpy(to, from, k);
    to[k] = 0;
    return to;
}

char *strdup(const char *from) { return strndup(from, (size_t)-1); }
