/* The pieces that from-c makes of a call of printf or its kin, each with one part of the format. They give the number of
   bytes that the piece has. */
#include <stddef.h>
#include <stdio.h>
#include <string.h>

/* The flags of a conversion. */
enum { LEFT = 1, PLUS = 2, SPACE = 4, ALTERNATE = 8, ZEROS = 16, UPPER = 32 };

int __print_text(FILE *stream, const char *text, size_t n) {
    fwrite(text, 1, n, stream);
    return (int)n;
}

static int repeated(FILE *stream, int c, int n) {
    for (int k = 0; k < n; k++)
        fputc(c, stream);
    return n > 0 ? n : 0;
}

/* A text with spaces before or behind it. A negative width is that to the left. */
static int padded(FILE *stream, const char *text, int n, int flags, int width) {
    int fill = (width < 0 ? -width : width) - n, left = width < 0 || flags & LEFT;
    int count = left ? 0 : repeated(stream, ' ', fill);
    count += __print_text(stream, text, n);
    return count + (left ? repeated(stream, ' ', fill) : 0);
}

int __print_character(FILE *stream, int c, int flags, int width) {
    char text = (char)c;
    return padded(stream, &text, 1, flags, width);
}

/* A precision below 0 is none. */
int __print_string(FILE *stream, const char *text, int flags, int width, int precision) {
    if (!text)
        text = precision >= 0 && precision < 6 ? "" : "(null)";
    return padded(stream, text, (int)(precision < 0 ? strlen(text) : strnlen(text, precision)), flags, width);
}

/* Writes what stands in front of the digits, zeros, the digits, and spaces around all. */
static int number(FILE *stream, const char *front, const char *digits, int n, int flags, int width, int precision) {
    int head = (int)strlen(front), zeros = precision - n;
    if (width < 0)
        width = -width, flags |= LEFT;
    if (zeros < 0)
        zeros = 0;
    if (precision < 0 && flags & ZEROS && !(flags & LEFT) && width > head + n)
        zeros = width - head - n;
    int fill = width - head - zeros - n, count = 0;
    if (!(flags & LEFT))
        count += repeated(stream, ' ', fill);
    count += __print_text(stream, front, head);
    count += repeated(stream, '0', zeros);
    count += __print_text(stream, digits, n);
    if (flags & LEFT)
        count += repeated(stream, ' ', fill);
    return count;
}

/* The digits end where the room ends; gives the first. */
static char *spelled(char *end, unsigned long long n, unsigned base, int flags) {
    const char *digits = flags & UPPER ? "0123456789ABCDEF" : "0123456789abcdef";
    if (n <= (unsigned)-1) {
        for (unsigned k = (unsigned)n; k > 0; k /= base)
            *--end = digits[k % base];
        return end;
    }
    for (; n > 0; n /= base)
        *--end = digits[n % base];
    return end;
}

int __print_signed(FILE *stream, long long n, int flags, int width, int precision) {
    char room[24], *end = room + sizeof room;
    char *at = spelled(end, n < 0 ? -(unsigned long long)n : (unsigned long long)n, 10, 0);
    if (n == 0 && precision != 0)
        *--at = '0';
    return number(stream, n < 0 ? "-" : flags & PLUS ? "+" : flags & SPACE ? " " : "", at, (int)(end - at), flags, width, precision);
}

int __print_unsigned(FILE *stream, unsigned long long n, unsigned base, int flags, int width, int precision) {
    char room[24], *end = room + sizeof room;
    char *at = spelled(end, n, base, flags);
    const char *front = "";
    if (n == 0 && precision != 0)
        *--at = '0';
    if (flags & ALTERNATE && base == 16 && n != 0)
        front = flags & UPPER ? "0X" : "0x";
    if (flags & ALTERNATE && base == 8 && end - at >= precision && (at == end || *at != '0'))
        *--at = '0';
    return number(stream, front, at, (int)(end - at), flags, width, precision);
}

int __print_pointer(FILE *stream, const void *p, int flags, int width) {
    if (!p)
        return padded(stream, "(nil)", 5, flags, width);
    return __print_unsigned(stream, (size_t)p, 16, flags | ALTERNATE, width, -1);
}

/* The stream over memory that sprintf and snprintf write to; one call is open at a time. */
static FILE memory;

FILE *__print_open(char *to, size_t n) {
    memory.kind = 3;
    memory.at = to;
    memory.left = n > 0 ? n - 1 : 0;
    return &memory;
}

/* Sets the 0 behind what was written. */
int __print_close(FILE *stream, size_t n) {
    if (n > 0)
        *stream->at = 0;
    return 0;
}
