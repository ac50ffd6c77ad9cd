/* Primes below 60,000, seventeen times: stores of bytes in steps, and loads in a row. */
int putchar(int);

static char crossed[60000];

int main(void) {
    unsigned found = 0;
    for (unsigned round = 0; round < 17; round++) {
        for (unsigned k = 0; k < 60000; k++)
            crossed[k] = (char)(k < round % 2);
        for (unsigned k = 2; k < 60000; k++) {
            if (crossed[k])
                continue;
            found++;
            for (unsigned i = 2 * k; i < 60000; i += k)
                crossed[i] = 1;
        }
    }
    putchar('a' + found % 26);
    return 0;
}
