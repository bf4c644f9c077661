/* The greatest common divisor and the least common multiple of some pairs. */
#include <stdio.h>

int gcd(int a, int b)
{
    if (b == 0)
        return a;
    return gcd(b, a % b);
}

int left[] = { 12, 81, 100, 17, 270 };
int right[] = { 18, 27, 75, 5, 192 };

int main(void)
{
    int i;

    puts("  a    b  gcd     lcm");
    for (i = 0; i < 5; i++) {
        int g = gcd(left[i], right[i]);
        printf("%3d  %3d  %3d  %6d\n", left[i], right[i], g, left[i] / g * right[i]);
    }
    return 0;
}
