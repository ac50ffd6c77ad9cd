/* Hashes of 32, 64 and 128 bits with xxHash. */
#include <inttypes.h>
#include <stdio.h>
#include <xxhash.h>

int main(void) {
    static unsigned char text[3000];
    for (int k = 0; k < 3000; k++)
        text[k] = (unsigned char)(k * k);
    for (unsigned n = 0; n <= 3000; n = 3 * n + 1)
        printf("%u %08" PRIx32 " %016" PRIx64 " %016" PRIx64 "\n", n, XXH32(text, n, 7), (uint64_t)XXH64(text, n, 7), (uint64_t)XXH3_64bits(text, n));
    return 0;
}
