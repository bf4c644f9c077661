#include <stdio.h>

/* Counts the words of the input, puts the number out and returns it. */

void put_number(int n) {
  if (n > 9) put_number(n / 10);
  putchar('0' + n % 10);
}

int main(void) {
  int c;
  int in = 0;
  int words = 0;
  while ((c = getchar()) != EOF) {
    if (c == ' ' || c == '\n' || c == '\t') in = 0;
    else if (!in) { in = 1; words++; }
  }
  put_number(words);
  putchar('\n');
  return words;
}
