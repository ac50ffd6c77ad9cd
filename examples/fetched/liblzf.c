/* Compresses and reads back with LibLZF. */
#include <stdio.h>
#include <string.h>
#include <lzf.h>

int main(void) {
    static char text[3000], packed[4000], back[3000];
    for (int k = 0; k < 3000; k++)
        text[k] = "offload the loop, load the page "[k * k % 31];
    unsigned n = lzf_compress(text, sizeof text, packed, sizeof packed);
    unsigned m = lzf_decompress(packed, n, back, sizeof back);
    printf("%u %u %d\n", n, m, memcmp(text, back, sizeof text));
    return 0;
}
