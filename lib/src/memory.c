/* Bytes. A call of memcpy, memmove or memset by its name becomes an instruction of the machine; what stands here is for
   calls through a pointer. */
#include <string.h>

void *memccpy(void *__restrict to, const void *__restrict from, int c, size_t n) {
    unsigned char *d = to;
    const unsigned char *s = from;
    while (n-- > 0)
        if ((*d++ = *s++) == (unsigned char)c)
            return d;
    return NULL;
}

void *memchr(const void *at, int c, size_t n) {
    const unsigned char *s = at;
    for (; n > 0; n--, s++)
        if (*s == (unsigned char)c)
            return (void *)s;
    return NULL;
}

void *memrchr(const void *at, int c, size_t n) {
    const unsigned char *s = (const unsigned char *)at + n;
    while (n-- > 0)
        if (*--s == (unsigned char)c)
            return (void *)s;
    return NULL;
}

int memcmp(const void *a, const void *b, size_t n) {
    const unsigned char *s = a, *t = b;
    for (; n > 0; n--, s++, t++)
        if (*s != *t)
            return *s < *t ? -1 : 1;
    return 0;
}

int bcmp(const void *a, const void *b, size_t n) { return memcmp(a, b, n); }

void *memcpy(void *__restrict to, const void *__restrict from, size_t n) {
    unsigned char *d = to;
    const unsigned char *s = from;
    while (n-- > 0)
        *d++ = *s++;
    return to;
}

void *memmove(void *to, const void *from, size_t n) {
    unsigned char *d = to;
    const unsigned char *s = from;
    if ((size_t)d - (size_t)s >= n) {
        while (n-- > 0)
            *d++ = *s++;
    } else {
        while (n-- > 0)
            d[n] = s[n];
    }
    return to;
}

void *memset(void *at, int c, size_t n) {
    unsigned char *d = at;
    while (n-- > 0)
        *d++ = (unsigned char)c;
    return at;
}

void *mempcpy(void *__restrict to, const void *__restrict from, size_t n) { return (char *)memcpy(to, from, n) + n; }
void bcopy(const void *from, void *to, size_t n) { memmove(to, from, n); }
void bzero(void *at, size_t n) { memset(at, 0, n); }
