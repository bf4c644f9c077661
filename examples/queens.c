#include <stdio.h>

/* Counts the ways to put six queens on a board of six by six so that none attacks another. */
int column[6];

int is_free(int row, int at) {
  int i;
  for (i = 0; i < row; i++) {
    int gap = row - i;
    if (column[i] == at || column[i] == at - gap || column[i] == at + gap) return 0;
  }
  return 1;
}

int place(int row) {
  int at;
  int found = 0;
  if (row == 6) return 1;
  for (at = 0; at < 6; at++) {
    if (is_free(row, at)) {
      column[row] = at;
      found += place(row + 1);
    }
  }
  return found;
}

int main(void) {
  int ways = place(0);
  putchar('0' + ways);
  putchar('\n');
  return ways;
}
