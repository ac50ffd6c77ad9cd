/* Older names for bytes, and comparison without regard to case. */
#ifndef LIB_STRINGS_H
#define LIB_STRINGS_H

#include <stddef.h>

int bcmp(const void *a, const void *b, size_t n);
void bcopy(const void *from, void *to, size_t n);
void bzero(void *at, size_t n);
int ffs(int n);
char *index(const char *at, int c);
char *rindex(const char *at, int c);
int strcasecmp(const char *a, const char *b);
int strncasecmp(const char *a, const char *b, size_t n);

#endif
