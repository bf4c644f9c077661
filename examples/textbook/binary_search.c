/* Binary search in a table, with the steps that it takes. */
#include <stdio.h>

#define SIZE 15

int table[SIZE] = { 2, 3, 5, 7, 11, 13, 17, 19, 23, 29, 31, 37, 41, 43, 47 };

int find(int wanted)
{
    int low = 0, high = SIZE - 1;

    while (low <= high) {
        int middle = low + (high - low) / 2;
        printf("  [%2d..%2d] %d\n", low, high, table[middle]);
        if (table[middle] == wanted)
            return middle;
        if (table[middle] < wanted)
            low = middle + 1;
        else
            high = middle - 1;
    }
    return -1;
}

void seek(int wanted)
{
    int at;

    printf("seeking %d\n", wanted);
    at = find(wanted);
    if (at >= 0)
        printf("  found at %d\n", at);
    else
        printf("  not found\n");
}

int main(void)
{
    seek(7);
    seek(47);
    seek(20);
    return 0;
}
