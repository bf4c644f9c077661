#include <stdio.h>

/* Puts out the cyclic redundancy check of its input, by the polynomial 0x1021 from 0xffff on (CRC-16), as four
   hexadecimal digits, and returns it. */
unsigned short table[16][16];

void fill(void) {
  int high;
  int low;
  for (high = 0; high < 16; high++) {
    for (low = 0; low < 16; low++) {
      unsigned short word = (high << 4 | low) << 8;
      int i;
      for (i = 0; i < 8; i++) word = word & 0x8000 ? word << 1 ^ 0x1021 : word << 1;
      table[high][low] = word;
    }
  }
}

int main(void) {
  unsigned short check = 0xffff;
  int c;
  int i;
  fill();
  while ((c = getchar()) != EOF) {
    unsigned char at = check >> 8 ^ c;
    check = check << 8 ^ table[at >> 4][at & 15];
  }
  for (i = 12; i >= 0; i -= 4) {
    int digit = check >> i & 15;
    putchar(digit < 10 ? '0' + digit : 'a' + digit - 10);
  }
  putchar('\n');
  return check;
}
