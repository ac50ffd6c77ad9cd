/* scanf and its kin, on the input or on a text. A conversion that the library doesn't have ends the run. Digits are read as in
   numbers.c, and what stands in front of a conversion's letter as in printing.c. */
#include <ctype.h>
#include <stdarg.h>
#include <stdio.h>
#include <stdlib.h>
#include <string.h>

/* Where bytes come from, the text where there is no stream, and how many were taken. */
struct source {
    FILE *stream;
    const char *text;
    int taken;
};

/* What stands between % and the letter: the most bytes of the field, the bytes of an integer, and whether the result is kept. */
struct field {
    int width, length;
    _Bool kept;
    /* Behind %[, where the set begins and ends; a ^ is left out of it. */
    const char *set, *end;
    _Bool others;
};

static int next_byte(struct source *in) {
    int c = in->stream ? fgetc(in->stream) : *in->text ? (unsigned char)*in->text++ : EOF;
    in->taken += c != EOF;
    return c;
}

static void put_back(struct source *in, int c) {
    if (c == EOF)
        return;
    in->taken--;
    if (in->stream)
        ungetc(c, in->stream);
    else
        in->text--;
}

/* The next byte of a field, or EOF at its end. */
static int next_of(struct source *in, struct field *field) { return field->width-- > 0 ? next_byte(in) : EOF; }

static int skip_spaces(struct source *in) {
    int c;
    while (isspace(c = next_byte(in)))
        ;
    put_back(in, c);
    return c;
}

static void store(void *to, unsigned long long n, int length) {
    switch (length) {
    case 1: *(unsigned char *)to = (unsigned char)n; break;
    case 2: *(unsigned short *)to = (unsigned short)n; break;
    case 4: *(unsigned *)to = (unsigned)n; break;
    default: *(unsigned long long *)to = n;
    }
}

static _Bool scan_number(struct source *in, struct field *field, unsigned base, unsigned long long *n) {
    int c = next_of(in, field), below = c == '-';
    _Bool any = 0;
    if (c == '-' || c == '+')
        c = next_of(in, field);
    if (c == '0' && (base == 0 || base == 16)) {
        any = 1;
        c = next_of(in, field);
        if (c == 'x' || c == 'X')
            any = 0, base = 16, c = next_of(in, field);
        else if (base == 0)
            base = 8;
    }
    if (base == 0)
        base = 10;
    for (*n = 0; c != EOF && digit((unsigned char)c) < base; c = next_of(in, field))
        *n = *n * base + digit((unsigned char)c), any = 1;
    put_back(in, c);
    if (below)
        *n = -*n;
    return any;
}

static _Bool is_in_set(const struct field *field, int c) {
    for (const char *at = field->set; at < field->end; at++) {
        unsigned char first = (unsigned char)*at, last = first;
        if (at + 2 < field->end && at[1] == '-')
            last = (unsigned char)at[2], at += 2;
        if (c >= first && c <= last)
            return !field->others;
    }
    return field->others;
}

/* Reads bytes for %c, %s and %[; gives how many. */
static int scan_text(struct source *in, struct field *field, char letter, char *to) {
    int n = 0, c;
    while ((c = next_of(in, field)) != EOF) {
        if ((letter == 's' && isspace(c)) || (letter == '[' && !is_in_set(field, c))) {
            put_back(in, c);
            break;
        }
        if (to)
            to[n] = (char)c;
        n++;
    }
    if (to && n > 0 && letter != 'c')
        to[n] = 0;
    return n;
}

static const char *read_set(const char *at, struct field *field) {
    field->others = *at == '^';
    field->set = at + field->others;
    field->end = *field->set ? strchr(field->set + 1, ']') : NULL;
    if (!field->end)
        abort();
    return field->end;
}

/* Reads what stands behind %, up to the letter. */
static const char *read_field(const char *at, struct field *field) {
    struct piece piece;
    field->kept = *at != '*';
    at += !field->kept;
    field->width = (int)strtol(at, NULL, 10);
    at = sized(at + strspn(at, "0123456789"), &piece);
    field->length = piece.length;
    return at;
}

/* One conversion: 1 where it is done, 0 where the input doesn't fit it. */
static int scan_field(struct source *in, char letter, struct field *field, void *to) {
    static const char letters[] = "diuxXop";
    static const unsigned char bases[] = {10, 0, 10, 16, 16, 8, 16};
    const char *found = strchr(letters, letter);
    if (found) {
        unsigned long long n;
        if (field->width == 0)
            field->width = 1 << 30;
        if (!scan_number(in, field, bases[found - letters], &n))
            return 0;
        if (to)
            store(to, n, letter == 'p' ? (int)sizeof(void *) : field->length);
        return 1;
    }
    if (letter != 'c' && letter != 's' && letter != '[')
        abort();
    if (field->width == 0)
        field->width = letter == 'c' ? 1 : 1 << 30;
    int wanted = letter == 'c' ? field->width : 1;
    return scan_text(in, field, letter, to) >= wanted;
}

/* A byte of the format that is no conversion. Spaces stand for any number of them. */
static _Bool is_met(struct source *in, char wanted) {
    if (isspace((unsigned char)wanted))
        return skip_spaces(in), 1;
    int c = next_byte(in);
    if (c == (unsigned char)wanted)
        return 1;
    put_back(in, c);
    return 0;
}

static _Bool is_ended(struct source *in) {
    int c = next_byte(in);
    put_back(in, c);
    return c == EOF;
}

static int scanned(struct source *in, const char *format, va_list list) {
    int count = 0;
    for (const char *at = format; *at; at++) {
        struct field field;
        if (*at != '%' || at[1] == '%') {
            at += *at == '%' && skip_spaces(in) | 1;
            if (is_met(in, *at))
                continue;
            return count == 0 && is_ended(in) ? EOF : count;
        }
        at = read_field(at + 1, &field);
        if (*at == 'n') {
            if (field.kept)
                store(va_arg(list, void *), (unsigned long long)in->taken, field.length);
            continue;
        }
        char letter = *at;
        if (letter == '[')
            at = read_set(at + 1, &field);
        else if (letter != 'c')
            skip_spaces(in);
        if (is_ended(in))
            return count == 0 ? EOF : count;
        if (!scan_field(in, letter, &field, field.kept ? va_arg(list, void *) : NULL))
            return count;
        count += field.kept;
    }
    return count;
}

int vfscanf(FILE *__restrict stream, const char *__restrict format, va_list list) {
    struct source in = {.stream = stream};
    return scanned(&in, format, list);
}

int vsscanf(const char *__restrict text, const char *__restrict format, va_list list) {
    struct source in = {.text = text};
    return scanned(&in, format, list);
}

int vscanf(const char *__restrict format, va_list list) { return vfscanf(stdin, format, list); }

int scanf(const char *__restrict format, ...) { LISTED(vscanf(format, list)); }
int fscanf(FILE *__restrict stream, const char *__restrict format, ...) { LISTED(vfscanf(stream, format, list)); }
int sscanf(const char *__restrict text, const char *__restrict format, ...) { LISTED(vsscanf(text, format, list)); }
