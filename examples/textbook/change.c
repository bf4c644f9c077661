/* The ways to change an amount, and the fewest coins for it. */
#include <stdio.h>
#include <limits.h>

int main(void)
{
    const int coins[] = {1, 2, 5, 10, 20, 50, 100, 200};
    const int kinds = 8;
    const int amount = 200;
    int ways[201] = {1};
    int fewest[201] = {0};
    for (int i = 1; i <= amount; i++)
        fewest[i] = INT_MAX - 1;
    for (int k = 0; k < kinds; k++) {
        const int coin = coins[k];
        for (int i = coin; i <= amount; i++) {
            ways[i] += ways[i - coin];
            if (fewest[i - coin] + 1 < fewest[i])
                fewest[i] = fewest[i - coin] + 1;
        }
    }
    printf("ways to change %d: %d\n", amount, ways[amount]);
    for (int i = 188; i <= amount; i += 4)
        printf("%d needs %d coins\n", i, fewest[i]);
    return 0;
}
