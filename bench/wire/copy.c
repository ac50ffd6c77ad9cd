/* Makes 64 MiB, and with the word "copy" copies them once, in pages of their own as a reader of frames does. */
#include <stdio.h>
#include <stdlib.h>
#include <string.h>

enum { FRAME = 4109, FRAMES = 16384 };

int main(int count, char **words) {
    unsigned char *from = malloc((size_t)FRAME * FRAMES);
    unsigned char **pages = malloc(sizeof *pages * FRAMES);
    if (!from || !pages) return 1;
    memset(from, 7, (size_t)FRAME * FRAMES);
    unsigned sum = 0;
    if (count > 1 && strcmp(words[1], "copy") == 0) {
        for (int k = 0; k < FRAMES; k++) {
            pages[k] = malloc(4096);
            if (!pages[k]) return 1;
            memcpy(pages[k], from + (size_t)k * FRAME, 4096);
            sum += pages[k][k % 4096];
            if (k % 16 == 15)
                for (int j = k - 15; j <= k; j++) free(pages[j]);
        }
    }
    printf("%u\n", sum);
    return 0;
}
