/* Fibonacci numbers that are remembered, and a counter of calls that stays. */
#include <stdio.h>
#include <stdint.h>

enum { MOST = 91 };

static uint64_t fibonacci(unsigned n)
{
    static uint64_t known[MOST] = {0, 1};
    if (n < 2)
        return n;
    if (known[n] == 0)
        known[n] = fibonacci(n - 1) + fibonacci(n - 2);
    return known[n];
}

static unsigned ticket(void)
{
    static unsigned next = 100;
    return next++;
}

int main(void)
{
    for (unsigned n = 0; n <= 90; n += 10)
        printf("fibonacci(%2u) = %llu\n", n, (unsigned long long)fibonacci(n));
    unsigned first = ticket();
    unsigned second = ticket();
    unsigned third = ticket();
    printf("tickets %u %u %u\n", first, second, third);
    return 0;
}
