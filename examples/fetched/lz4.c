/* Compresses fast and well, and reads back, with LZ4. */
#include <stdio.h>
#include <string.h>
#include <lz4.h>
#include <lz4hc.h>

int main(void) {
    static char text[3000], packed[4000], back[3000];
    for (int k = 0; k < 3000; k++)
        text[k] = "offload the loop, load the page "[k * k % 31];
    int n = LZ4_compress_default(text, packed, sizeof text, sizeof packed);
    int m = LZ4_decompress_safe(packed, back, n, sizeof back);
    printf("%d %d %d\n", n, m, memcmp(text, back, sizeof text));
    n = LZ4_compress_HC(text, packed, sizeof text, sizeof packed, 9);
    m = LZ4_decompress_safe(packed, back, n, sizeof back);
    printf("%d %d %d\n", n, m, memcmp(text, back, sizeof text));
    return 0;
}
