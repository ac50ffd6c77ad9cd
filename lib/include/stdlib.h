/* Numbers, sorting, memory, and the end of a run. The environment, files and processes are not there. */
#ifndef LIB_STDLIB_H
#define LIB_STDLIB_H

#include <stddef.h>

#define EXIT_SUCCESS 0
#define EXIT_FAILURE 1
#define RAND_MAX 2147483647

typedef struct {
    int quot, rem;
} div_t;
typedef struct {
    long quot, rem;
} ldiv_t;
typedef struct {
    long long quot, rem;
} lldiv_t;

/* These are the program's own: the machine has them. */
void *malloc(size_t n);
void *calloc(size_t count, size_t n);
void free(void *block);
_Noreturn void exit(int status);
_Noreturn void abort(void);

int atexit(void (*function)(void));

void *realloc(void *block, size_t n);
void *reallocarray(void *block, size_t count, size_t n);

int abs(int n);
long labs(long n);
long long llabs(long long n);
static inline __attribute__((always_inline)) div_t div(int n, int by) { return (div_t){n / by, n % by}; }
static inline __attribute__((always_inline)) ldiv_t ldiv(long n, long by) { return (ldiv_t){n / by, n % by}; }
static inline __attribute__((always_inline)) lldiv_t lldiv(long long n, long long by) { return (lldiv_t){n / by, n % by}; }

int atoi(const char *text);
long atol(const char *text);
long long atoll(const char *text);
long strtol(const char *__restrict text, char **__restrict end, int base);
long long strtoll(const char *__restrict text, char **__restrict end, int base);
unsigned long strtoul(const char *__restrict text, char **__restrict end, int base);
unsigned long long strtoull(const char *__restrict text, char **__restrict end, int base);

void *bsearch(const void *key, const void *base, size_t count, size_t size, int (*compare)(const void *, const void *));
void qsort(void *base, size_t count, size_t size, int (*compare)(const void *, const void *));

int rand(void);
int rand_r(unsigned *seed);
void srand(unsigned seed);

#endif
