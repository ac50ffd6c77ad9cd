/* The three standard streams. Input and output are the run's; what goes to stderr is written nowhere, since the run has one
   output. A call of printf or its kin with a literal format is parted by from-c into calls of the functions of src/formats.c. */
#ifndef LIB_STDIO_H
#define LIB_STDIO_H

#include <stddef.h>
#include <stdarg.h>

typedef __PTRDIFF_TYPE__ ssize_t;
typedef struct __stream FILE;
struct __stream {
    /* Where bytes go or come from: 0 the input, 1 the output, 2 nowhere, 3 the memory from `at`. */
    unsigned char kind;
    /* Whether the end was met. */
    unsigned char ended;
    /* How many bytes were pushed back, which is at most one. */
    unsigned char waiting;
    unsigned char pushed;
    char *at;
    /* The room that is left in memory, the 0 at the end aside. */
    size_t left;
};
extern FILE __streams[3];

#define stdin (&__streams[0])
#define stdout (&__streams[1])
#define stderr (&__streams[2])
#define EOF (-1)
#define BUFSIZ 1024
#define _IOFBF 0
#define _IOLBF 1
#define _IONBF 2

int getchar(void);
int putchar(int c);
int puts(const char *text);

void clearerr(FILE *stream);
int feof(FILE *stream);
int ferror(FILE *stream);
int fflush(FILE *stream);
int fgetc(FILE *stream);
char *fgets(char *__restrict to, int n, FILE *__restrict stream);
int fputc(int c, FILE *stream);
int fputs(const char *__restrict text, FILE *__restrict stream);
size_t fread(void *__restrict to, size_t size, size_t count, FILE *__restrict stream);
size_t fwrite(const void *__restrict from, size_t size, size_t count, FILE *__restrict stream);
int getc(FILE *stream);
ssize_t getdelim(char **__restrict line, size_t *__restrict room, int end, FILE *__restrict stream);
ssize_t getline(char **__restrict line, size_t *__restrict room, FILE *__restrict stream);
void perror(const char *text);
int putc(int c, FILE *stream);
void setbuf(FILE *__restrict stream, char *__restrict room);
int setvbuf(FILE *__restrict stream, char *__restrict room, int mode, size_t n);
int ungetc(int c, FILE *stream);

/* So that a byte that was pushed back is met by getchar too. */
#define getchar() fgetc(stdin)
#define getchar_unlocked() fgetc(stdin)
#define getc_unlocked(stream) fgetc(stream)
#define putchar_unlocked(c) putchar(c)
#define putc_unlocked(c, stream) fputc(c, stream)

int printf(const char *__restrict format, ...) __attribute__((format(printf, 1, 2)));
int fprintf(FILE *__restrict stream, const char *__restrict format, ...) __attribute__((format(printf, 2, 3)));
int sprintf(char *__restrict to, const char *__restrict format, ...) __attribute__((format(printf, 2, 3)));
int snprintf(char *__restrict to, size_t n, const char *__restrict format, ...) __attribute__((format(printf, 3, 4)));
int asprintf(char **to, const char *format, ...) __attribute__((format(printf, 2, 3)));
int vprintf(const char *__restrict format, va_list list);
int vfprintf(FILE *__restrict stream, const char *__restrict format, va_list list);
int vsprintf(char *__restrict to, const char *__restrict format, va_list list);
int vsnprintf(char *__restrict to, size_t n, const char *__restrict format, va_list list);
int vasprintf(char **to, const char *format, va_list list);

int scanf(const char *__restrict format, ...) __attribute__((format(scanf, 1, 2)));
int fscanf(FILE *__restrict stream, const char *__restrict format, ...) __attribute__((format(scanf, 2, 3)));
int sscanf(const char *__restrict text, const char *__restrict format, ...) __attribute__((format(scanf, 2, 3)));
int vscanf(const char *__restrict format, va_list list);
int vfscanf(FILE *__restrict stream, const char *__restrict format, va_list list);
int vsscanf(const char *__restrict text, const char *__restrict format, va_list list);

#endif
