/* The mean of no numbers. */
int mean(int sum, int count) { return sum / count; }

int main(void) {
  int count = 0;
  mean(7, count);
  return 3;
}
