/* Numbers that are the sum of their digits' powers, and perfect numbers. */
#include <stdio.h>

int digits(int n)
{
    return n < 10 ? 1 : 1 + digits(n / 10);
}

int power(int base, int exponent)
{
    return exponent == 0 ? 1 : base * power(base, exponent - 1);
}

int sum_of_powers(int n, int exponent)
{
    return n == 0 ? 0 : power(n % 10, exponent) + sum_of_powers(n / 10, exponent);
}

int sum_of_divisors(int n)
{
    int sum = 0, i;

    for (i = 1; i < n; i++)
        if (n % i == 0)
            sum += i;
    return sum;
}

int main(void)
{
    int n;

    printf("Armstrong:");
    for (n = 1; n < 500; n++)
        if (sum_of_powers(n, digits(n)) == n)
            printf(" %d", n);
    printf("\nperfect:");
    for (n = 2; n < 130; n++)
        if (sum_of_divisors(n) == n)
            printf(" %d", n);
    printf("\n");
    return 0;
}
