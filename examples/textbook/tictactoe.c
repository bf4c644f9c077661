/* The best play of noughts and crosses, by looking through all games. */
#include <stdio.h>

enum { EMPTY, CROSS, NOUGHT };
enum { SIZE = 9, LINES = 8 };

static const int lines[LINES][3] = {
    {0, 1, 2}, {3, 4, 5}, {6, 7, 8}, {0, 3, 6}, {1, 4, 7}, {2, 5, 8}, {0, 4, 8}, {2, 4, 6},
};

static int board[SIZE];
static long positions = 0;

static int winner(void)
{
    for (int i = 0; i < LINES; i++) {
        const int a = board[lines[i][0]];
        if (a != EMPTY && a == board[lines[i][1]] && a == board[lines[i][2]])
            return a;
    }
    return EMPTY;
}

static int value(int player)
{
    int best = -2;
    positions++;
    if (winner() != EMPTY)
        return -1;
    for (register int i = 0; i < SIZE; i++) {
        if (board[i] == EMPTY) {
            int v;
            board[i] = player;
            v = -value(CROSS + NOUGHT - player);
            board[i] = EMPTY;
            if (v > best)
                best = v;
        }
    }
    return best == -2 ? 0 : best;
}

static void show(void)
{
    static const char marks[] = ".XO";
    for (int i = 0; i < SIZE; i++) {
        putchar(marks[board[i]]);
        putchar(i % 3 == 2 ? '\n' : ' ');
    }
}

int main(void)
{
    board[0] = CROSS;
    board[4] = NOUGHT;
    board[8] = CROSS;
    show();
    printf("value for nought: %d\n", value(NOUGHT));
    printf("positions: %ld\n", positions);
    return 0;
}
