/* The first board of eight queens, and how many there are. */
#include <stdio.h>

#define N 8

int column[N];
int found;

int is_free(int row, int at)
{
    int i;

    for (i = 0; i < row; i++)
        if (column[i] == at || column[i] - at == row - i || at - column[i] == row - i)
            return 0;
    return 1;
}

void show(void)
{
    int i, j;

    for (i = 0; i < N; i++) {
        for (j = 0; j < N; j++)
            printf(" %c", column[i] == j ? 'Q' : '.');
        printf("\n");
    }
}

void place(int row)
{
    int at;

    if (row == N) {
        if (found++ == 0)
            show();
        return;
    }
    for (at = 0; at < N && found == 0; at++)
        if (is_free(row, at)) {
            column[row] = at;
            place(row + 1);
        }
}

int main(void)
{
    place(0);
    return found;
}
