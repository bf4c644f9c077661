/* The primes below a hundred, by the sieve of Eratosthenes. */
#include <stdio.h>
#include <string.h>

#define LIMIT 100

char crossed[LIMIT];

int main(void)
{
    int count = 0;
    int i, j;

    memset(crossed, 0, LIMIT);
    for (i = 2; i < LIMIT; i++) {
        if (crossed[i])
            continue;
        for (j = i * i; j < LIMIT; j += i)
            crossed[j] = 1;
        printf("%4d", i);
        if (++count % 10 == 0)
            putchar('\n');
    }
    printf("\n%d primes below %d\n", count, LIMIT);
    return count;
}
