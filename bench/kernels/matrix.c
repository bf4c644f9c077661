/* The product of two matrices of 12 rows. */
int a[12][12];
int b[12][12];
int c[12][12];

int main(void) {
  int i;
  int j;
  int k;
  int s;
  for (i = 0; i < 12; i++)
    for (j = 0; j < 12; j++) {
      a[i][j] = i + 2 * j;
      b[i][j] = i * j + 1;
    }
  for (i = 0; i < 12; i++)
    for (j = 0; j < 12; j++) {
      s = 0;
      for (k = 0; k < 12; k++) s = s + a[i][k] * b[k][j];
      c[i][j] = s;
    }
  return (c[11][7] + c[3][9]) % 251;
}
