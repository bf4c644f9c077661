#include <stdio.h>

/* Smooths a noisy step: a filter of five taps over twenty samples. Puts out what comes of it, eight numbers a line, and
   returns the greatest. */
int taps[5] = {1, 4, 6, 4, 1};
int samples[20] = {3, -5, 8, 0, -7, 4, 2, -3, 60, 108, 94, 101, 97, 110, 92, 103, 99, 95, 106, 98};

void put_number(int n) {
  if (n < 0) {
    putchar('-');
    n = -n;
  }
  if (n > 9) put_number(n / 10);
  putchar('0' + n % 10);
}

/* the weighted mean of five samples from one on */
int filtered(int from) {
  int sum = 0;
  int k;
  for (k = 0; k < 5; k++) sum += taps[k] * samples[from + k];
  return sum / 16;
}

int main(void) {
  int i;
  int greatest = 0;
  for (i = 0; i < 16; i++) {
    int value = filtered(i);
    put_number(value);
    putchar(i % 8 == 7 ? '\n' : ' ');
    if (value > greatest) greatest = value;
  }
  return greatest;
}
