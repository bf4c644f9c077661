/* The bits of 100 words, counted and turned round. */
int main(void) {
  unsigned long word;
  unsigned long turned;
  int i;
  int k;
  int count = 0;
  unsigned long all = 0;
  for (i = 0; i < 100; i++) {
    word = (unsigned long) i * 2654435761ul;
    turned = 0;
    for (k = 0; k < 32; k++) {
      count = count + (int) (word & 1ul);
      turned = turned << 1 | word & 1ul;
      word = word >> 1;
    }
    all = all ^ turned;
  }
  return (int) ((all + (unsigned long) count) % 251ul);
}
