/* Calls that nest: the thirtieth number of Fibonacci by its definition. */
int putchar(int);

__attribute__((noinline)) static unsigned fibonacci(unsigned n) { return n < 2 ? n : fibonacci(n - 1) + fibonacci(n - 2); }

int main(void) {
    putchar('a' + fibonacci(30) % 26);
    return 0;
}
