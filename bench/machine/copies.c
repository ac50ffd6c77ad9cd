/* memcpy of 4,096 bytes, 300,000 times. */
#include <string.h>
int putchar(int);

static unsigned char a[4096], b[4096];

int main(void) {
    unsigned char *volatile from = a, *volatile to = b;
    for (unsigned k = 0; k < 300000; k++) {
        from[k % 4096] ^= (unsigned char)k;
        memcpy(to, from, 4096);
        unsigned char *kept = from;
        from = to;
        to = kept;
    }
    putchar('a' + from[77] % 26);
    return 0;
}
