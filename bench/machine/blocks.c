/* malloc and free in turn, with LIVE blocks at a time: 1,500,000 rounds. */
#include <stdlib.h>
int putchar(int);

#ifndef LIVE
#define LIVE 50
#endif
static unsigned char *kept[LIVE];

int main(void) {
    unsigned x = 1, lost = 0;
    for (unsigned k = 0; k < 1500000; k++) {
        x = x * 1664525 + 1013904223;
        unsigned at = (x >> 8) % LIVE;
        free(kept[at]);
        kept[at] = malloc((x >> 24) + 1);
        lost += kept[at] == NULL;
    }
    putchar('a' + lost % 26);
    return 0;
}
