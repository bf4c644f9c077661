/* Binary search in a sorted table of 512 numbers. */
int table[512];

int main(void) {
  int i;
  int low;
  int high;
  int middle;
  int found = 0;
  for (i = 0; i < 512; i++) table[i] = 3 * i + (i & 1);
  for (i = 0; i < 300; i++) {
    low = 0;
    high = 512;
    while (low < high) {
      middle = (low + high) / 2;
      if (table[middle] < 5 * i) low = middle + 1;
      else high = middle;
    }
    if (low < 512 && table[low] == 5 * i) found++;
  }
  return found;
}
