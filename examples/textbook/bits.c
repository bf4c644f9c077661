/* Tricks with bits: counting, reversing, powers of two, parity. */
#include <stdio.h>

int count(unsigned x)
{
    int n = 0;

    while (x != 0) {
        x &= x - 1;
        n++;
    }
    return n;
}

unsigned reversed(unsigned x)
{
    x = (x >> 1 & 0x55555555u) | (x & 0x55555555u) << 1;
    x = (x >> 2 & 0x33333333u) | (x & 0x33333333u) << 2;
    x = (x >> 4 & 0x0f0f0f0fu) | (x & 0x0f0f0f0fu) << 4;
    x = (x >> 8 & 0x00ff00ffu) | (x & 0x00ff00ffu) << 8;
    return x >> 16 | x << 16;
}

int is_power(unsigned x)
{
    return x != 0 && (x & (x - 1)) == 0;
}

unsigned samples[] = { 0u, 1u, 6u, 64u, 0xdeadbeefu, 0xffffffffu };

int main(void)
{
    int i;

    for (i = 0; i < 6; i++) {
        unsigned x = samples[i];
        printf("%08x: %2d ones, reversed %08x, parity %d", x, count(x), reversed(x), count(x) % 2);
        if (is_power(x))
            printf(", a power of two");
        printf("\n");
    }
    return 0;
}
