/* Digests with libmd. */
#include <sys/types.h>
#include <stdio.h>
#include <md5.h>
#include <rmd160.h>
#include <sha1.h>
#include <sha2.h>

static void show(const unsigned char *digest, int n) {
    for (int k = 0; k < n; k++)
        printf("%02x", digest[k]);
    printf("\n");
}

int main(void) {
    static const uint8_t text[] = "The quick brown fox jumps over the lazy dog";
    unsigned char digest[64];
    MD5_CTX md5;
    SHA1_CTX sha1;
    SHA2_CTX sha2;
    RMD160_CTX rmd160;
    MD5Init(&md5), MD5Update(&md5, text, 43), MD5Final(digest, &md5), show(digest, 16);
    SHA1Init(&sha1), SHA1Update(&sha1, text, 43), SHA1Final(digest, &sha1), show(digest, 20);
    SHA256Init(&sha2), SHA256Update(&sha2, text, 43), SHA256Final(digest, &sha2), show(digest, 32);
    SHA512Init(&sha2), SHA512Update(&sha2, text, 43), SHA512Final(digest, &sha2), show(digest, 64);
    RMD160Init(&rmd160), RMD160Update(&rmd160, text, 43), RMD160Final(digest, &rmd160), show(digest, 20);
    return 0;
}
