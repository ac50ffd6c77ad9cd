/* Writes the four bytes of a word as they stand in memory: "Hey\n" where the most significant byte stands first, "\nyeH" where it stands last. */
int putchar(int);

unsigned word = 0x4865790a;

int main(void) {
    unsigned char *p = (unsigned char *)&word;
    putchar(p[0]);
    putchar(p[1]);
    putchar(p[2]);
    putchar(p[3]);
    return p[3];
}
