/* Loads and stores all over 64 KiB: 1,800,000 rounds of eleven instructions. */
int putchar(int);

static unsigned words[16384];

int main(void) {
    unsigned at = 0, sum = 0;
    for (unsigned k = 0; k < 1800000; k++) {
        at = (at * 5 + 4001) & 16383;
        sum += words[at];
        words[at] = sum + k;
    }
    putchar('a' + sum % 26);
    return 0;
}
