/* A factorial, a power modulo a number, a common divisor and a test of primes with LibTomMath. */
#include <stdio.h>
#include <stdlib.h>
#include <tommath.h>

/* The random bytes, which the library leaves to the platform; the test of primes draws from them. */
mp_err s_mp_rand_platform(void *to, size_t n) {
    for (size_t k = 0; k < n; k++)
        ((unsigned char *)to)[k] = (unsigned char)(rand() >> 8);
    return MP_OKAY;
}

static void show(const mp_int *a) {
    char text[600];
    size_t n;
    mp_to_radix(a, text, sizeof text, &n, 10);
    puts(text);
}

int main(void) {
    mp_int a, b, c;
    mp_bool is_prime;
    mp_init_multi(&a, &b, &c, NULL);
    mp_set_u32(&a, 1);
    for (mp_digit k = 2; k <= 120; k++)
        mp_mul_d(&a, k, &a);
    show(&a);
    mp_read_radix(&b, "170141183460469231731687303715884105727", 10);
    mp_exptmod(&a, &a, &b, &c);
    show(&c);
    mp_gcd(&a, &c, &c);
    show(&c);
    mp_prime_is_prime(&b, 5, &is_prime);
    printf("%d\n", is_prime);
    return 0;
}
