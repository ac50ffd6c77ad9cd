/* scanf and its kin: each conversion on texts and on the input. Numbers are within their types, as C asks. */
#include <stdarg.h>
#include <stdio.h>
#include <string.h>
#include "check.h"

static char text[200];

static int listed(const char *from, const char *format, ...) {
    va_list list;
    va_start(list, format);
    int count = vsscanf(from, format, list);
    va_end(list);
    return count;
}

static int from_input(int way, const char *format, ...) {
    va_list list;
    va_start(list, format);
    int count = way ? vscanf(format, list) : vfscanf(stdin, format, list);
    va_end(list);
    return count;
}

static void numbers(void) {
    static const char *const spaces[] = {"", " ", "\t\n", "  "}, *const ends[] = {"", " ", "z", ",", "-", "\n"};
    for (int round = 0; round < 3000; round++) {
        int a = -1, b = -2, c = -3, taken = -4;
        unsigned u = 5, o = 6, x = 7;
        long long wide = 8;
        unsigned long long widest = 9;
        short small = 10;
        signed char least = 11;
        int n = (int)draw(1u << 31) >> draw(31);
        sprintf(text, "%s%d%s%d%s", spaces[draw(4)], (draw(2) ? n : -n) % 1000000, ends[draw(6)], (int)draw(1000), ends[draw(6)]);
        called(sscanf(text, "%d%d%n", &a, &b, &taken));
        note(a), note(b), note(taken);
        called(listed(text, " %3d%*d %2d", &a, &b));
        note(a), note(b);
        sprintf(text, "%s%s%x%s%o", spaces[draw(4)], draw(2) ? "0x" : "", n & 0xFFF, ends[draw(6)], n & 0xFFF);
        called(sscanf(text, "%x%o", &x, &o));
        note(x), note(o);
        called(sscanf(text, "%i,%i", &a, &c));
        note(a), note(c);
        sprintf(text, "%lld %llu %d:%d;%u", (long long)n * n, (unsigned long long)n * 9, (short)n, (signed char)n, (unsigned)n);
        called(listed(text, "%lld%llu %hd:%hhd ; %u", &wide, &widest, &small, &least, &u));
        note(wide), note((int64_t)widest), note(small), note(least), note(u);
    }
    report("numbers");
}

static void words(void) {
    static const char *const some[] = {"", "word", " two words", "a,b,c", "key = value", "k=v", "[set]-x", "  7 up", "100% sure", "\tx", "12ab"};
    for (int round = 0; round < 3000; round++) {
        char one[60] = "?", two[60] = "?", bytes[4] = "123";
        int n = -1;
        const char *from = some[draw(11)];
        called(sscanf(from, "%s%s", one, two));
        note_bytes(one, (unsigned)strlen(one) + 1), note_bytes(two, (unsigned)strlen(two) + 1);
        called(sscanf(from, "%3[a-z]%c", one, bytes));
        note_bytes(one, (unsigned)strlen(one) + 1), note_bytes(bytes, 4);
        called(sscanf(from, "%[^=,] %c %2s", one, bytes, two));
        note_bytes(one, (unsigned)strlen(one) + 1), note_bytes(two, (unsigned)strlen(two) + 1), note_bytes(bytes, 4);
        called(listed(from, "%*[]a[]%2c%n", bytes, &n));
        note_bytes(bytes, 4), note(n);
        called(listed(from, "%d%% %4s", &n, one));
        note(n), note_bytes(one, (unsigned)strlen(one) + 1);
        called(sscanf(from, "%*s %n", &n));
        note(n);
    }
    report("words");
}

static void input(void) {
    char word[400];
    unsigned char c;
    int n, rounds = 0;
    while (!feof(stdin) && rounds++ < 20000) {
        n = -7, c = '?', strcpy(word, "?");
        switch (rounds % 4) {
        case 0:
            called(scanf("%2s", word));
            break;
        case 1:
            called(fscanf(stdin, "%d", &n));
            break;
        case 2:
            called(from_input(0, " %c%1[^ \n]", &c, word));
            break;
        default:
            called(from_input(1, "%1s%*c%i", word, &n));
        }
        note(n), note(c);
        note_bytes(word, (unsigned)strlen(word));
    }
    called(scanf("%s", word));
    report("input");
}

int main(void) {
    numbers();
    words();
    input();
    return 0;
}
