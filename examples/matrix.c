#include <stdio.h>

/* Raises a matrix to powers by repeated products, and puts out Fibonacci's numbers, which stand in a corner of
   them. Returns the last of these. */
void multiply(long left[][2], long right[][2], long product[][2]) {
  int i;
  int j;
  int k;
  for (i = 0; i < 2; i++) {
    for (j = 0; j < 2; j++) {
      product[i][j] = 0;
      for (k = 0; k < 2; k++) product[i][j] += left[i][k] * right[k][j];
    }
  }
}

void copy(long from[][2], long to[][2]) {
  int i;
  int j;
  for (i = 0; i < 2; i++) {
    for (j = 0; j < 2; j++) to[i][j] = from[i][j];
  }
}

long one_step[2][2] = { { 1, 1 }, { 1 } };

long fibonacci(int n) {
  long power[2][2];
  long square[2][2];
  long product[2][2];
  power[0][0] = power[1][1] = 1;
  power[0][1] = power[1][0] = 0;
  copy(one_step, square);
  for (; n > 0; n /= 2) {
    if (n % 2) {
      multiply(power, square, product);
      copy(product, power);
    }
    multiply(square, square, product);
    copy(product, square);
  }
  return power[0][1];
}

void put_number(long n) {
  if (n > 9) put_number(n / 10);
  putchar('0' + (int) (n % 10));
}

int main(void) {
  int n;
  for (n = 5; n <= 40; n += 7) {
    put_number(fibonacci(n));
    putchar('\n');
  }
  return (int) fibonacci(40);
}
