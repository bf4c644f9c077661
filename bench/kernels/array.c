/* An array is filled, and added up from its start. */
long a[256];

int main(void) {
  int i;
  int turn;
  for (turn = 0; turn < 8; turn++) {
    for (i = 0; i < 256; i++) a[i] = a[i] + i + turn;
    for (i = 1; i < 256; i++) a[i] = a[i] + a[i - 1];
  }
  return (int) (a[255] % 251);
}
