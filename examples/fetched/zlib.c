/* Compresses and reads back with zlib. */
#include <stdio.h>
#include <string.h>
#include <zlib.h>

int main(void) {
    static unsigned char text[3000], packed[4000], back[3000];
    for (int k = 0; k < 3000; k++)
        text[k] = "offload the loop, load the page "[k * k % 31];
    uLongf n = sizeof packed, m = sizeof back;
    int status = compress2(packed, &n, text, sizeof text, 9);
    status |= uncompress(back, &m, packed, n);
    printf("%d %lu %lu %d %08lx %08lx\n", status, n, m, memcmp(text, back, sizeof text), crc32(0, packed, (uInt)n), adler32(1, text, sizeof text));
    return status;
}
