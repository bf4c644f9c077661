/* Six generations of the game of life on a torus of 16 by 16. */
unsigned char now[16][16];
unsigned char next[16][16];

int main(void) {
  int turn;
  int r;
  int c;
  int n;
  int alive = 0;
  now[1][2] = 1;
  now[2][3] = 1;
  now[3][1] = 1;
  now[3][2] = 1;
  now[3][3] = 1;
  for (turn = 0; turn < 6; turn++) {
    for (r = 0; r < 16; r++)
      for (c = 0; c < 16; c++) {
        n = now[r + 15 & 15][c + 15 & 15] + now[r + 15 & 15][c] + now[r + 15 & 15][c + 1 & 15]
          + now[r][c + 15 & 15] + now[r][c + 1 & 15]
          + now[r + 1 & 15][c + 15 & 15] + now[r + 1 & 15][c] + now[r + 1 & 15][c + 1 & 15];
        next[r][c] = (unsigned char) (n == 3 || n == 2 && now[r][c]);
      }
    for (r = 0; r < 16; r++)
      for (c = 0; c < 16; c++) now[r][c] = next[r][c];
  }
  for (r = 0; r < 16; r++)
    for (c = 0; c < 16; c++) alive += now[r][c];
  return alive;
}
