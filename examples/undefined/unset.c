/* No branch sets the sign of zero. */
int sign(int x) {
  int s;
  if (x > 0) s = 1;
  if (x < 0) s = -1;
  return s;
}

int main(void) { return sign(0); }
