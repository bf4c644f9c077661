/* Powers modulo a number, and a test for primes by them (Fermat, with bases 2, 3, 5, 7). */
#include <stdio.h>

long power(long base, long exponent, long modulus)
{
    long result = 1;

    base %= modulus;
    while (exponent > 0) {
        if (exponent & 1)
            result = result * base % modulus;
        base = base * base % modulus;
        exponent >>= 1;
    }
    return result;
}

int is_probable(long n)
{
    int i;

    for (i = 2; i <= 7; i += i < 3 ? 1 : 2)
        if (n % i == 0)
            return n == i;
    for (i = 2; i <= 7; i += i < 3 ? 1 : 2)
        if (power(i, n - 1, n) != 1)
            return 0;
    return n > 1;
}

int main(void)
{
    long n;
    int count = 0;

    for (n = 1000000; count < 8; n++)
        if (is_probable(n)) {
            printf("%ld\n", n);
            count++;
        }
    return 0;
}
