/* The loop goes one element too far. */
int a[4];

int main(void) {
  int i, sum = 0;
  for (i = 0; i < 4; i++) a[i] = i;
  for (i = 0; i <= 4; i++) sum += a[i];
  return sum;
}
