/* A knight's way over a board, always to the square that has the fewest ways on (Warnsdorff's rule). */
#include <stdio.h>

#define N 8

int board[N][N];
int across[8] = { 1, 2, 2, 1, -1, -2, -2, -1 };
int down[8] = { 2, 1, -1, -2, -2, -1, 1, 2 };

int is_free(int x, int y)
{
    return x >= 0 && x < N && y >= 0 && y < N && board[x][y] == 0;
}

int ways(int x, int y)
{
    int i, n = 0;

    for (i = 0; i < 8; i++)
        n += is_free(x + across[i], y + down[i]);
    return n;
}

int main(void)
{
    int x = 0, y = 0, step, i, j;

    for (step = 1; step <= N * N; step++) {
        int best = -1, fewest = 9;
        board[x][y] = step;
        for (i = 0; i < 8; i++) {
            int u = x + across[i], v = y + down[i];
            if (is_free(u, v) && ways(u, v) < fewest) {
                best = i;
                fewest = ways(u, v);
            }
        }
        if (best < 0)
            break;
        x += across[best];
        y += down[best];
    }
    for (i = 0; i < N; i++) {
        for (j = 0; j < N; j++)
            printf("%3d", board[i][j]);
        printf("\n");
    }
    return step;
}
