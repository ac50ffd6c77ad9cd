/* The bytes of a number through a union, and a tagged value. */
/* prints on a device with the most significant byte first: 1 2 3 4 5 6 7 8\n7 -3 x\n */
/* prints on the others: 8 7 6 5 4 3 2 1\n7 -3 x\n */
/* returns: 36 */
int putchar(int);

union word {
    unsigned long long whole;
    unsigned half[2];
    unsigned char bytes[8];
};

enum kind { SMALL, SIGNED, LETTER };
struct value {
    enum kind kind;
    union {
        unsigned char small;
        int number;
        char letter;
    } as;
};

static void show(const struct value *v) {
    switch (v->kind) {
    case SMALL:
        putchar('0' + v->as.small);
        break;
    case SIGNED:
        if (v->as.number < 0)
            putchar('-');
        putchar('0' + (v->as.number < 0 ? -v->as.number : v->as.number));
        break;
    case LETTER:
        putchar(v->as.letter);
    }
}

static union word word = {0x0102030405060708ULL};
static struct value values[3] = {{SMALL, {7}}, {SIGNED, {.number = -3}}, {LETTER, {.letter = 'x'}}};

int main(void) {
    int sum = 0;
    for (int i = 0; i < 8; i++) {
        sum += word.bytes[i];
        putchar('0' + word.bytes[i]);
        putchar(i < 7 ? ' ' : '\n');
    }
    union word swapped;
    swapped.half[0] = word.half[1];
    swapped.half[1] = word.half[0];
    if (swapped.whole != 0x0506070801020304ULL)
        return 1;
    for (int i = 0; i < 3; i++) {
        show(&values[i]);
        putchar(i < 2 ? ' ' : '\n');
    }
    return sum;
}
