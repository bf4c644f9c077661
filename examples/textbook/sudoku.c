/* A sudoku, by trying. */
#include <stdio.h>

char board[9][10] = {
    "53467.9.2", "67.195348", "19834.5.7", "859.61423", "4.68537.1", "7139.48.6", ".61537284", "2874.9635", "34528.179"
};

int fits(int r, int c, char d)
{
    int i;

    for (i = 0; i < 9; i++)
        if (board[r][i] == d || board[i][c] == d || board[r / 3 * 3 + i / 3][c / 3 * 3 + i % 3] == d)
            return 0;
    return 1;
}

int solve(int at)
{
    int r = at / 9, c = at % 9;
    char d;

    if (at == 81)
        return 1;
    if (board[r][c] != '.')
        return solve(at + 1);
    for (d = '1'; d <= '9'; d++)
        if (fits(r, c, d)) {
            board[r][c] = d;
            if (solve(at + 1))
                return 1;
        }
    board[r][c] = '.';
    return 0;
}

int main(void)
{
    int r, c, solved = solve(0);

    for (r = 0; r < 9; r++) {
        for (c = 0; c < 9; c++)
            printf(" %c", board[r][c]);
        printf("\n");
    }
    return solved ? 0 : 1;
}
