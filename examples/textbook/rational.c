/* Sums of fractions, reduced: the harmonic numbers. */
#include <stdio.h>

long top = 0, bottom = 1;

long gcd(long a, long b)
{
    return b == 0 ? a : gcd(b, a % b);
}

void add(long t, long b)
{
    long divisor;

    top = top * b + t * bottom;
    bottom = bottom * b;
    divisor = gcd(top, bottom);
    top /= divisor;
    bottom /= divisor;
}

int main(void)
{
    int n;

    for (n = 1; n <= 12; n++) {
        add(1, n);
        printf("H(%2d) = %6ld/%-6ld\n", n, top, bottom);
    }
    return 0;
}
