/* A loop that calls a small function. */
int mixed(int a, int b) {
  if (a > b) return a - b;
  return b - a + 1;
}

int main(void) {
  int i;
  int s = 0;
  for (i = 0; i < 1500; i++) s = s + mixed(i & 15, i >> 7);
  return s % 251;
}
