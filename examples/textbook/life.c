/* The game of life: a glider on a torus. */
#include <stdio.h>

#define SIZE 8

char now[SIZE][SIZE];
char then[SIZE][SIZE];

int around(int r, int c)
{
    int i, j, n = 0;

    for (i = -1; i <= 1; i++)
        for (j = -1; j <= 1; j++)
            if (i != 0 || j != 0)
                n += now[(r + i + SIZE) % SIZE][(c + j + SIZE) % SIZE];
    return n;
}

int main(void)
{
    int turn, r, c;

    now[0][1] = now[1][2] = now[2][0] = now[2][1] = now[2][2] = 1;
    for (turn = 0; turn < 5; turn++) {
        printf("turn %d\n", turn);
        for (r = 0; r < SIZE; r++) {
            for (c = 0; c < SIZE; c++)
                putchar(now[r][c] ? '#' : '.');
            putchar('\n');
        }
        for (r = 0; r < SIZE; r++)
            for (c = 0; c < SIZE; c++) {
                int n = around(r, c);
                then[r][c] = n == 3 || (n == 2 && now[r][c]);
            }
        for (r = 0; r < SIZE; r++)
            for (c = 0; c < SIZE; c++)
                now[r][c] = then[r][c];
    }
    return 0;
}
