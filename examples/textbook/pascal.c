/* Pascal's triangle. */
#include <stdio.h>

#define ROWS 10

long row[ROWS];

int main(void)
{
    int n, k;

    for (n = 0; n < ROWS; n++) {
        row[n] = 1;
        for (k = n - 1; k > 0; k--)
            row[k] += row[k - 1];
        for (k = 0; k < 2 * (ROWS - n); k++)
            putchar(' ');
        for (k = 0; k <= n; k++)
            printf("%4ld", row[k]);
        putchar('\n');
    }
    return 0;
}
