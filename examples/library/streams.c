/* The functions of stdio.h on the standard streams. The input is read to its end by all reading functions in turn. */
#define _GNU_SOURCE
#include <stdio.h>
#include <string.h>
#include "check.h"

static void reading(void) {
    char line[40], *other = NULL;
    size_t left = 0;
    int most = 0;
    for (int k = 0; !feof(stdin) && most < 30000; k++, most++) {
        int c;
        switch (k % 11) {
        case 0:
        case 5:
            called(getchar());
            break;
        case 1:
            called(fgetc(stdin));
            break;
        case 2:
            called(getc(stdin));
            break;
        case 3: {
            char *it = fgets(line, (int)(1 + draw(sizeof line)), stdin);
            called(it != NULL);
            if (it)
                note_bytes(it, (unsigned)strlen(it));
            break;
        }
        case 4: {
            size_t size = 1 + draw(5), n = fread(line, size, draw(sizeof line / 5), stdin);
            called((int64_t)n);
            note_bytes(line, (unsigned)(n * size));
            break;
        }
        case 9: {
            static char *whole;
            static size_t room;
            called(getline(&whole, &room, stdin));
            note_bytes(whole, (unsigned)strlen(whole));
            break;
        }
        case 10:
            called(getdelim(&other, &left, 'Z', stdin));
            note_bytes(other, (unsigned)strlen(other));
            break;
        default:
            c = getchar();
            called(c);
            called(ungetc(c, stdin));
            called(getc(stdin));
            if (c != EOF)
                called(ungetc(draw(2) ? c : 'X', stdin));
        }
        note(feof(stdin) != 0);
        note(ferror(stdin) != 0);
    }
    called(getchar());
    called(fgets(line, sizeof line, stdin) != NULL);
    called((int64_t)fread(line, 1, 5, stdin));
    clearerr(stdin);
    called(feof(stdin) != 0);
    called(ungetc('q', stdin));
    called(getchar());
    called(getchar());
    report("reading");
}

static void writing(void) {
    for (int k = 0; k < 1050; k++) {
        int c = 'a' + k % 26;
        called(putchar(c));
        called(fputc(c - 32, stdout));
        called(putc(k % 50 ? '.' : '\n', stdout));
        called(fputs(k % 3 ? "" : "<text>", stdout) >= 0);
        called((int64_t)fwrite("abcdefgh", 1 + (size_t)k % 2, (size_t)k % 4, stdout));
        called(fputs("unseen", stderr) >= 0);
        called(fputc('\n', stderr));
        called(fflush(stdout));
        called(puts(k % 3 ? "" : "a whole line") >= 0);
        called(feof(stdout) + ferror(stdout));
        clearerr(stdout);
    }
    report("writing");
    for (int k = 0; k < 1000; k++) {
        called(setvbuf(stdout, NULL, _IOFBF, BUFSIZ));
        setbuf(stderr, NULL);
        perror("unseen");
        called(fflush(NULL));
    }
    report("buffers");
}

int main(void) {
    reading();
    writing();
    return 0;
}
