/* Compresses and reads back with miniLZO. */
#include <stdio.h>
#include <string.h>
#include <minilzo.h>

int main(void) {
    static unsigned char text[3000], packed[4000], back[3000], room[LZO1X_1_MEM_COMPRESS];
    for (int k = 0; k < 3000; k++)
        text[k] = "offload the loop, load the page "[k * k % 31];
    lzo_uint n = 0, m = sizeof back;
    int status = lzo1x_1_compress(text, sizeof text, packed, &n, room);
    status |= lzo1x_decompress_safe(packed, n, back, &m, NULL);
    printf("%d %u %u %d\n", status, (unsigned)n, (unsigned)m, memcmp(text, back, sizeof text));
    return status;
}
