/* Writes "Hi!" and a line feed, and returns the last byte that it wrote. */
int putchar(int);

int main(void) {
    int h = putchar('H');
    int i = putchar(h + 33);
    putchar(i - 72);
    return putchar('\n');
}
