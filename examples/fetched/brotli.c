/* Reads compressed bytes with Brotli's decoder. */
#include <stdio.h>
#include <brotli/decode.h>

int main(void) {
    static const unsigned char packed[] = {0x0b, 0x05, 0x80, 0x68, 0x65, 0x6c, 0x6c, 0x6f, 0x20, 0x77, 0x6f, 0x72, 0x6c, 0x64, 0x03};
    unsigned char text[100];
    size_t n = sizeof text;
    int status = BrotliDecoderDecompress(sizeof packed, packed, &n, text);
    printf("%d %u %.*s\n", status, (unsigned)n, status == BROTLI_DECODER_RESULT_SUCCESS ? (int)n : 0, (char *)text);
    return 0;
}
