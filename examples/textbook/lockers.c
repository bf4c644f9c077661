/* A hundred lockers: in turn n every nth one is opened or closed. Which are open at the end? */
#include <stdbool.h>
#include <stdio.h>

#define LOCKERS 100

/* How many are open. */
static int count(const bool open[], int n)
{
    int sum = 0;
    for (int i = 1; i <= n; i++)
        sum += open[i];
    return sum;
}

int main(void)
{
    bool open[LOCKERS + 1] = { false };

    for (int turn = 1; turn <= LOCKERS; turn++)
        for (int i = turn; i <= LOCKERS; i += turn)
            open[i] = !open[i];
    printf("open:");
    for (int i = 1; i <= LOCKERS; i++)
        if (open[i])
            printf(" %d", i);
    printf("\n%d of %d, in %d bytes\n", count(open, LOCKERS), LOCKERS, (int)sizeof open);
    return count(open, LOCKERS);
}
