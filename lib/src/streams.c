/* The standard streams, over the bytes that the run reads and writes. */
#include <stdio.h>
#include <stdlib.h>
#include <string.h>
#undef getchar

FILE __streams[3] = {{.kind = 0}, {.kind = 1}, {.kind = 2}};

int fputc(int c, FILE *stream) {
    if (stream->kind == 1)
        putchar(c);
    else if (stream->kind == 3 && stream->left > 0) {
        *stream->at++ = (char)c;
        stream->left--;
    } else if (stream->kind == 0)
        return EOF;
    return (unsigned char)c;
}

int putc(int c, FILE *stream) { return fputc(c, stream); }

size_t fwrite(const void *__restrict from, size_t size, size_t count, FILE *__restrict stream) {
    const unsigned char *s = from;
    if (stream->kind == 0)
        return 0;
    for (size_t k = 0; k < size * count; k++)
        fputc(s[k], stream);
    return size ? count : 0;
}

int fputs(const char *__restrict text, FILE *__restrict stream) {
    for (; *text; text++)
        if (fputc(*text, stream) == EOF)
            return EOF;
    return 1;
}

int fgetc(FILE *stream) {
    if (stream->kind != 0)
        return EOF;
    if (stream->waiting) {
        stream->waiting = 0;
        return stream->pushed;
    }
    if (stream->ended)
        return EOF;
    int c = getchar();
    if (c == EOF)
        stream->ended = 1;
    return c;
}

int getc(FILE *stream) { return fgetc(stream); }

int ungetc(int c, FILE *stream) {
    if (c == EOF || stream->kind != 0 || stream->waiting)
        return EOF;
    stream->waiting = 1;
    stream->pushed = (unsigned char)c;
    stream->ended = 0;
    return stream->pushed;
}

char *fgets(char *__restrict to, int n, FILE *__restrict stream) {
    char *at = to;
    int c = 0;
    if (n < 1)
        return NULL;
    while (--n > 0 && c != '\n' && (c = fgetc(stream)) != EOF)
        *at++ = (char)c;
    if (c == EOF && at == to)
        return NULL;
    *at = 0;
    return to;
}

/* The block is made greater by doubling, from 120 bytes on. */
ssize_t getdelim(char **__restrict line, size_t *__restrict room, int end, FILE *__restrict stream) {
    size_t n = 0;
    int c = 0;
    if (!*line)
        *room = 0;
    while (c != end && (c = fgetc(stream)) != EOF) {
        if (n + 2 > *room) {
            size_t more = *room < 60 ? 120 : *room * 2;
            char *block = realloc(*line, more);
            if (!block)
                return -1;
            *line = block, *room = more;
        }
        (*line)[n++] = (char)c;
        (*line)[n] = 0;
    }
    return n > 0 ? (ssize_t)n : -1;
}

ssize_t getline(char **__restrict line, size_t *__restrict room, FILE *__restrict stream) { return getdelim(line, room, '\n', stream); }

size_t fread(void *__restrict to, size_t size, size_t count, FILE *__restrict stream) {
    unsigned char *d = to;
    size_t k = 0;
    for (int c; k < size * count && (c = fgetc(stream)) != EOF; k++)
        d[k] = (unsigned char)c;
    return size ? k / size : 0;
}

void clearerr(FILE *stream) { stream->ended = 0; }
int feof(FILE *stream) { return stream->ended; }
int ferror(FILE *stream) { return 0 * stream->kind; }
int fflush(FILE *stream) { return 0 * (stream != NULL); }
void perror(const char *text) { fputs(text, stderr); }
void setbuf(FILE *__restrict stream, char *__restrict room) { (void)stream, (void)room; }

int setvbuf(FILE *__restrict stream, char *__restrict room, int mode, size_t n) {
    return (void)stream, (void)room, (void)mode, (int)(0 * n);
}

_Noreturn void __assert_fail(const char *condition, const char *file, unsigned line, const char *function) {
    (void)condition, (void)file, (void)line, (void)function;
    abort();
}
