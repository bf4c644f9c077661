/* The function falls off its end, and its value is taken. */
int half(int x) {
  if (x % 2 == 0) return x / 2;
}

int main(void) { return half(7); }
