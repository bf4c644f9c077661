#include <stdio.h>

/* The game of life on a board of eight by eight whose opposite edges meet: puts the board out after four turns, and
   returns how many cells live. */
char board[8][8] = {
  { 0, 1 },
  { 0, 0, 1 },
  { 1, 1, 1 },
  { 0 },
  { 0, 0, 0, 0, 0, 1, 1, 1 },
};

int neighbours(char cells[][8], int row, int column) {
  int count = 0;
  int i;
  int j;
  for (i = -1; i <= 1; i++) {
    for (j = -1; j <= 1; j++) {
      if (i == 0 && j == 0) continue;
      count += cells[row + i & 7][column + j & 7];
    }
  }
  return count;
}

void turn(char cells[8][8]) {
  char next[8][8];
  int i;
  int j;
  for (i = 0; i < 8; i++) {
    for (j = 0; j < 8; j++) {
      switch (neighbours(cells, i, j)) {
        case 2: next[i][j] = cells[i][j]; break;
        case 3: next[i][j] = 1; break;
        default: next[i][j] = 0;
      }
    }
  }
  for (i = 0; i < 8; i++) {
    for (j = 0; j < 8; j++) cells[i][j] = next[i][j];
  }
}

int main(void) {
  int i;
  int j;
  int living = 0;
  for (i = 0; i < 4; i++) turn(board);
  for (i = 0; i < 8; i++) {
    for (j = 0; j < 8; j++) {
      putchar(board[i][j] ? '#' : '.');
      living += board[i][j];
    }
    putchar('\n');
  }
  return living;
}
