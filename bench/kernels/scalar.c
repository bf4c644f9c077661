/* A loop over scalars. */
int main(void) {
  int i = 0;
  int s = 0;
  while (i < 4000) {
    s = s + i;
    i = i + 1;
  }
  return s % 251;
}
