/* printf and its kin, where the format is chosen at run time or the arguments are a list. Each conversion is written by the
   functions of formats.c. One that isn't among them ends the run. */
#include <stdarg.h>
#include <stdio.h>
#include <stdlib.h>
#include <string.h>

int __print_text(FILE *stream, const char *text, size_t n);
int __print_character(FILE *stream, int c, int flags, int width);
int __print_string(FILE *stream, const char *text, int flags, int width, int precision);
int __print_signed(FILE *stream, long long n, int flags, int width, int precision);
int __print_unsigned(FILE *stream, unsigned long long n, unsigned base, int flags, int width, int precision);
int __print_pointer(FILE *stream, const void *p, int flags, int width);
FILE *__print_open(char *to, size_t n);
int __print_close(FILE *stream, size_t n);

/* What stands between % and the letter of a conversion. The length is that of an integer in bytes. */
struct piece {
    int flags, width, precision, length;
    /* Whether a letter gave the length. */
    _Bool sized;
};

/* A list that functions hand on to one another. */
struct arguments {
    va_list list;
};

static const char *measured(const char *at, int *n, struct arguments *given) {
    if (*at == '*') {
        *n = va_arg(given->list, int);
        return at + 1;
    }
    for (*n = 0; *at >= '0' && *at <= '9'; at++)
        *n = *n * 10 + (*at - '0');
    return at;
}

static const char *sized(const char *at, struct piece *piece) {
    piece->length = sizeof(int);
    piece->sized = 1;
    switch (*at) {
    case 'h':
        piece->length = at[1] == 'h' ? sizeof(char) : sizeof(short);
        return at + 1 + (at[1] == 'h');
    case 'l':
        piece->length = at[1] == 'l' ? sizeof(long long) : sizeof(long);
        return at + 1 + (at[1] == 'l');
    case 'j':
    case 'q':
        piece->length = sizeof(long long);
        return at + 1;
    case 'z':
    case 't':
        piece->length = sizeof(size_t);
        return at + 1;
    }
    piece->sized = 0;
    return at;
}

/* Reads what stands behind %, up to the letter. */
static const char *read_piece(const char *at, struct piece *piece, struct arguments *given) {
    static const char letters[] = "-+ #0";
    piece->flags = 0;
    for (const char *flag; *at && (flag = strchr(letters, *at)); at++)
        piece->flags |= 1 << (flag - letters);
    at = measured(at, &piece->width, given);
    piece->precision = -1;
    if (*at == '.')
        at = measured(at + 1, &piece->precision, given);
    return sized(at, piece);
}

static long long next_signed(const struct piece *piece, struct arguments *given) {
    long long n = piece->length == sizeof(long long) ? va_arg(given->list, long long) : va_arg(given->list, int);
    return piece->length == 1 ? (signed char)n : piece->length == 2 ? (short)n : n;
}

static unsigned long long next_unsigned(const struct piece *piece, struct arguments *given) {
    unsigned long long n = piece->length == sizeof(long long) ? va_arg(given->list, unsigned long long) : va_arg(given->list, unsigned);
    return piece->length == 1 ? (unsigned char)n : piece->length == 2 ? (unsigned short)n : n;
}

static int print_piece(FILE *stream, char letter, const struct piece *piece, struct arguments *given) {
    int flags = piece->flags, width = piece->width, precision = piece->precision;
    switch (letter) {
    case 'd':
    case 'i':
        return __print_signed(stream, next_signed(piece, given), flags, width, precision);
    case 'u':
        return __print_unsigned(stream, next_unsigned(piece, given), 10, flags, width, precision);
    case 'o':
        return __print_unsigned(stream, next_unsigned(piece, given), 8, flags, width, precision);
    case 'x':
        return __print_unsigned(stream, next_unsigned(piece, given), 16, flags, width, precision);
    case 'X':
        return __print_unsigned(stream, next_unsigned(piece, given), 16, flags | 32, width, precision);
    case 'p':
        return __print_pointer(stream, va_arg(given->list, const void *), flags, width);
    case '%':
        return __print_text(stream, "%", 1);
    }
    if (piece->sized || (letter != 'c' && letter != 's'))
        abort();
    if (letter == 'c')
        return __print_character(stream, va_arg(given->list, int), flags, width);
    return __print_string(stream, va_arg(given->list, const char *), flags, width, precision);
}

int vfprintf(FILE *__restrict stream, const char *__restrict format, va_list list) {
    struct arguments given;
    int count = 0;
    va_copy(given.list, list);
    for (const char *at = format; *at;) {
        size_t n = strcspn(at, "%");
        count += __print_text(stream, at, n);
        at += n;
        if (*at) {
            struct piece piece;
            at = read_piece(at + 1, &piece, &given);
            count += print_piece(stream, *at, &piece, &given);
            at++;
        }
    }
    va_end(given.list);
    return count;
}

int vprintf(const char *__restrict format, va_list list) { return vfprintf(stdout, format, list); }

int vsnprintf(char *__restrict to, size_t n, const char *__restrict format, va_list list) {
    FILE *stream = __print_open(to, n);
    int count = vfprintf(stream, format, list);
    __print_close(stream, n);
    return count;
}

int vsprintf(char *__restrict to, const char *__restrict format, va_list list) { return vsnprintf(to, (size_t)-1, format, list); }

int vasprintf(char **to, const char *format, va_list list) {
    va_list again;
    va_copy(again, list);
    int count = vsnprintf(NULL, 0, format, again);
    va_end(again);
    *to = malloc((size_t)count + 1);
    return *to ? vsprintf(*to, format, list) : -1;
}

#define LISTED(call)          \
    va_list list;             \
    va_start(list, format);   \
    int count = call;         \
    va_end(list);             \
    return count

int printf(const char *__restrict format, ...) { LISTED(vprintf(format, list)); }
int fprintf(FILE *__restrict stream, const char *__restrict format, ...) { LISTED(vfprintf(stream, format, list)); }
int sprintf(char *__restrict to, const char *__restrict format, ...) { LISTED(vsprintf(to, format, list)); }
int snprintf(char *__restrict to, size_t n, const char *__restrict format, ...) { LISTED(vsnprintf(to, n, format, list)); }
int asprintf(char **to, const char *format, ...) { LISTED(vasprintf(to, format, list)); }
