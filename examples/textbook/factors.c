/* The prime factors of some numbers. */
#include <stdio.h>

long numbers[] = { 12, 97, 360, 1001, 65536, 999999, 600851475143 };

void factor(long n)
{
    long p = 2;
    printf("%ld =", n);
    while (p * p <= n) {
        int times = 0;
        while (n % p == 0) {
            n /= p;
            times++;
        }
        if (times > 0) {
            printf(" %ld", p);
            if (times > 1)
                printf("^%d", times);
        }
        p++;
    }
    if (n > 1)
        printf(" %ld", n);
    printf("\n");
}

int main(void)
{
    int i;

    for (i = 0; i < 7; i++)
        factor(numbers[i]);
    return 0;
}
