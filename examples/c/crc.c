/* Check sums of "123456789": CRC-32 by bits and by table, CRC-16 (CCITT), Adler-32, Fletcher-16. */
/* prints: CBF43926\nCBF43926\n29B1\n91E01DE\n1EDE\n */
/* returns: 38 */
int putchar(int);

static const char text[] = "123456789";
static unsigned table[256];

static void hexadecimal(unsigned n) {
    if (n >= 16)
        hexadecimal(n / 16);
    putchar("0123456789ABCDEF"[n % 16]);
}

static void show(unsigned n) {
    hexadecimal(n);
    putchar('\n');
}

static unsigned by_bits(const char *s) {
    unsigned crc = ~0u;
    for (; *s; s++) {
        crc ^= (unsigned char)*s;
        for (int k = 0; k < 8; k++)
            crc = crc & 1 ? crc >> 1 ^ 0xEDB88320u : crc >> 1;
    }
    return ~crc;
}

static unsigned by_table(const char *s) {
    for (unsigned i = 0; i < 256; i++) {
        unsigned c = i;
        for (int k = 0; k < 8; k++)
            c = (c >> 1) ^ (0xEDB88320u & -(c & 1));
        table[i] = c;
    }
    unsigned crc = ~0u;
    while (*s)
        crc = crc >> 8 ^ table[(crc ^ (unsigned char)*s++) & 255];
    return ~crc;
}

static unsigned short short_crc(const char *s) {
    unsigned short crc = 0xFFFF;
    for (; *s; s++) {
        crc ^= (unsigned short)((unsigned char)*s << 8);
        for (int k = 0; k < 8; k++)
            crc = (unsigned short)(crc & 0x8000 ? crc << 1 ^ 0x1021 : crc << 1);
    }
    return crc;
}

static unsigned sums(const char *s, unsigned start, unsigned modulus, unsigned shift) {
    unsigned a = start, b = 0;
    for (; *s; s++) {
        a = (a + (unsigned char)*s) % modulus;
        b = (b + a) % modulus;
    }
    return b << shift | a;
}

int main(void) {
    unsigned crc = by_bits(text);
    show(crc);
    show(by_table(text));
    show(short_crc(text));
    show(sums(text, 1, 65521, 16));
    show(sums(text, 0, 255, 8));
    return (int)(crc & 255);
}
