/* The longest of Collatz's walks below a limit. */
#include <stdio.h>

int length(long n)
{
    int steps = 0;

    while (n != 1) {
        n = n % 2 == 0 ? n / 2 : 3 * n + 1;
        steps++;
    }
    return steps;
}

int main(void)
{
    int n, best = 1, most = 0;

    for (n = 1; n < 100; n++)
        if (length(n) > most) {
            best = n;
            most = length(n);
        }
    printf("%d takes %d steps\n", best, most);
    return most;
}
