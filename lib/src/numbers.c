/* Numbers from texts, absolute values, and numbers that look drawn by chance. */
#include <ctype.h>
#include <errno.h>
#include <inttypes.h>
#include <limits.h>
#include <stdlib.h>
#include <string.h>
#include <strings.h>

int errno;

int abs(int n) { return n < 0 ? -n : n; }
long labs(long n) { return n < 0 ? -n : n; }
long long llabs(long long n) { return n < 0 ? -n : n; }
intmax_t imaxabs(intmax_t n) { return n < 0 ? -n : n; }

int ffs(int n) {
    for (int k = 0; k < 32; k++)
        if ((unsigned)n >> k & 1)
            return k + 1;
    return 0;
}

static unsigned digit(unsigned char c) {
    return isdigit(c) ? c - '0' : isalpha(c) ? tolower(c) - 'a' + 10 : 255;
}

/* What a text says in a base: the number up to a limit, its sign, and where it ends. */
struct number {
    unsigned long long size;
    int below, over;
};

static struct number *scan(struct number *it, const char *text, char **end, int base, unsigned long long most, unsigned long long least) {
    const char *s = text;
    it->size = 0, it->below = 0, it->over = 0;
    if (base < 0 || base == 1 || base > 36) {
        errno = EINVAL;
        return it;
    }
    if (end)
        *end = (char *)text;
    while (isspace((unsigned char)*s))
        s++;
    if (*s == '-' || *s == '+')
        it->below = *s++ == '-';
    if ((base == 0 || base == 16) && *s == '0' && (s[1] == 'x' || s[1] == 'X') && digit(s[2]) < 16)
        s += 2, base = 16;
    else if (base == 0)
        base = *s == '0' ? 8 : 10;
    unsigned long long limit = it->below ? least : most;
    if (digit(*s) >= (unsigned)base)
        return it;
    for (unsigned d; (d = digit(*s)) < (unsigned)base; s++) {
        if (it->over || it->size > (limit - d) / base || d > limit)
            it->over = 1;
        else
            it->size = it->size * base + d;
    }
    if (end)
        *end = (char *)s;
    if (it->over)
        errno = ERANGE, it->size = limit;
    return it;
}

long long strtoll(const char *__restrict text, char **__restrict end, int base) {
    struct number it;
    scan(&it, text, end, base, LLONG_MAX, (unsigned long long)LLONG_MAX + 1);
    return (long long)(it.below ? -it.size : it.size);
}

long strtol(const char *__restrict text, char **__restrict end, int base) {
    struct number it;
    scan(&it, text, end, base, LONG_MAX, (unsigned long long)LONG_MAX + 1);
    return (long)(it.below ? -it.size : it.size);
}

unsigned long long strtoull(const char *__restrict text, char **__restrict end, int base) {
    struct number it;
    scan(&it, text, end, base, ULLONG_MAX, ULLONG_MAX);
    return it.below && !it.over ? -it.size : it.size;
}

unsigned long strtoul(const char *__restrict text, char **__restrict end, int base) {
    struct number it;
    scan(&it, text, end, base, ULONG_MAX, ULONG_MAX);
    return (unsigned long)(it.below && !it.over ? -it.size : it.size);
}

intmax_t strtoimax(const char *__restrict text, char **__restrict end, int base) { return strtoll(text, end, base); }
uintmax_t strtoumax(const char *__restrict text, char **__restrict end, int base) { return strtoull(text, end, base); }
int atoi(const char *text) { return (int)strtol(text, NULL, 10); }
long atol(const char *text) { return strtol(text, NULL, 10); }
long long atoll(const char *text) { return strtoll(text, NULL, 10); }

/* The sums of two earlier numbers, 3 and 31 places before, as the GNU library draws them: the same seed gives the same
   numbers as there. */
static unsigned drawn[31], place = 31;

void srand(unsigned seed) {
    int n = seed ? (int)seed : 1;
    for (int k = 0; k < 31; k++) {
        drawn[k] = (unsigned)n;
        n = (int)(n % 127773 * 16807 - n / 127773 * 2836);
        if (n < 0)
            n += 2147483647;
    }
    place = 0;
    for (int k = 0; k < 310; k++)
        rand();
}

int rand(void) {
    if (place == 31)
        srand(1);
    drawn[(place + 3) % 31] += drawn[place];
    unsigned n = drawn[(place + 3) % 31];
    place = (place + 1) % 31;
    return (int)(n >> 1);
}

int rand_r(unsigned *seed) {
    unsigned n = 0;
    for (int k = 0; k < 3; k++) {
        *seed = *seed * 1103515245 + 12345;
        n = k == 0 ? *seed / 65536 % 2048 : n << 10 ^ *seed / 65536 % 1024;
    }
    return (int)n;
}
