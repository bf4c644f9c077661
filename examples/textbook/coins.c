/* Some of the coins that make up a sum: the first way that a search finds ends the run, deep in its recursion. */
#include <stdio.h>
#include <stdlib.h>

#define COUNT 9

static const int coins[COUNT] = { 47, 31, 29, 23, 19, 17, 13, 7, 3 };
static int taken[COUNT];
static int steps = 0;

static void show(int sum)
{
    int i, many = 0;

    printf("%d =", sum);
    for (i = 0; i < COUNT; i++) {
        if (taken[i]) {
            if (many > 0)
                printf(" +");
            printf(" %d", coins[i]);
            many++;
        }
    }
    printf("\n%d steps\n", steps);
    exit(many);
}

static void search(int sum, int from, int left)
{
    steps++;
    if (left == 0)
        show(sum);
    if (from == COUNT || left < 0)
        return;
    taken[from] = 1;
    search(sum, from + 1, left - coins[from]);
    taken[from] = 0;
    search(sum, from + 1, left);
}

int main(void)
{
    search(100, 0, 100);
    puts("there is no way");
    return 0;
}
