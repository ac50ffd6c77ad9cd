/* Compresses and reads back with bzip2's library. */
#include <stdio.h>
#include <stdlib.h>
#include <string.h>
#include <bzlib.h>

void bz_internal_error(int fault) {
    printf("fault %d\n", fault);
    exit(3);
}

int main(void) {
    static char text[3000], packed[4000], back[3000];
    for (int k = 0; k < 3000; k++)
        text[k] = "offload the loop, load the page "[k * k % 31];
    unsigned n = sizeof packed, m = sizeof back;
    int status = BZ2_bzBuffToBuffCompress(packed, &n, text, sizeof text, 1, 0, 0);
    status |= BZ2_bzBuffToBuffDecompress(back, &m, packed, n, 0, 0);
    printf("%d %u %u %d\n", status, n, m, memcmp(text, back, sizeof text));
    return status;
}
