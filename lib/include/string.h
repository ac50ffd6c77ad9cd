/* Bytes and strings. strerror, strcoll and strxfrm are not there. */
#ifndef LIB_STRING_H
#define LIB_STRING_H

#include <stddef.h>
#include <strings.h>

void *memccpy(void *__restrict to, const void *__restrict from, int c, size_t n);
void *memchr(const void *at, int c, size_t n);
int memcmp(const void *a, const void *b, size_t n);
void *memcpy(void *__restrict to, const void *__restrict from, size_t n);
void *memmove(void *to, const void *from, size_t n);
void *memmem(const void *in, size_t n, const void *what, size_t m);
void *mempcpy(void *__restrict to, const void *__restrict from, size_t n);
void *memrchr(const void *at, int c, size_t n);
void *memset(void *at, int c, size_t n);
char *stpcpy(char *__restrict to, const char *__restrict from);
char *stpncpy(char *__restrict to, const char *__restrict from, size_t n);
char *strcat(char *__restrict to, const char *__restrict from);
char *strcasestr(const char *in, const char *what);
char *strchr(const char *at, int c);
char *strchrnul(const char *at, int c);
int strcmp(const char *a, const char *b);
char *strcpy(char *__restrict to, const char *__restrict from);
size_t strcspn(const char *at, const char *stops);
char *strdup(const char *from);
size_t strlen(const char *at);
char *strncat(char *__restrict to, const char *__restrict from, size_t n);
int strncmp(const char *a, const char *b, size_t n);
char *strncpy(char *__restrict to, const char *__restrict from, size_t n);
char *strndup(const char *from, size_t n);
size_t strnlen(const char *at, size_t n);
char *strpbrk(const char *at, const char *stops);
char *strrchr(const char *at, int c);
char *strsep(char **__restrict rest, const char *__restrict stops);
size_t strspn(const char *at, const char *set);
char *strstr(const char *in, const char *what);
char *strtok(char *__restrict at, const char *__restrict stops);
char *strtok_r(char *__restrict at, const char *__restrict stops, char **__restrict rest);

#endif
