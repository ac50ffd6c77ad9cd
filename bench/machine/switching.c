/* A byte code with a switch: 1,900,000 codes. */
int putchar(int);

enum { ADD, DOUBLE, MIX, SWAP, SHIFT, STORE, LOAD, BACK };
static const unsigned char code[] = {ADD, DOUBLE, MIX, STORE, SWAP, ADD, SHIFT, MIX, LOAD, DOUBLE, SWAP, STORE, MIX, ADD, LOAD, BACK};
static unsigned cells[16];

int main(void) {
    unsigned at = 0, a = 1, b = 2;
    for (unsigned k = 0; k < 1900000; k++) {
        switch (code[at++]) {
        case ADD:
            a += b + k;
            break;
        case DOUBLE:
            a <<= 1;
            break;
        case MIX:
            a ^= b >> 3;
            break;
        case SWAP:
            a ^= b, b ^= a, a ^= b;
            break;
        case SHIFT:
            b = b >> 7 | b << 25;
            break;
        case STORE:
            cells[a & 15] = b;
            break;
        case LOAD:
            b += cells[a & 15];
            break;
        default:
            at = 0;
        }
    }
    putchar('a' + (a ^ b) % 26);
    return 0;
}
