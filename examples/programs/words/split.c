#include <ctype.h>
#include <stddef.h>
#include "split.h"

static int within(const char *at) {
    return isalnum((unsigned char)*at) || (*at == '\'' && isalpha((unsigned char)at[1]));
}

const char *next_word(const char *at, char *to, int room) {
    while (*at && !isalnum((unsigned char)*at))
        at++;
    if (!*at)
        return NULL;
    for (; within(at); at++)
        if (room > 1) {
            *to++ = (char)tolower((unsigned char)*at);
            room--;
        }
    *to = 0;
    return at;
}
