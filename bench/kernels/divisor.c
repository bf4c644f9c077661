/* The greatest common divisors of neighbours, by remainders. */
int main(void) {
  int a;
  int b;
  int held;
  int i;
  int s = 0;
  for (i = 1; i < 200; i++) {
    a = 3 * i + 77;
    b = 5 * i + 12;
    while (b != 0) {
      held = a % b;
      a = b;
      b = held;
    }
    s = s + a;
  }
  return s % 251;
}
