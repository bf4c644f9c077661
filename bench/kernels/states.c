/* A machine of six states, by a switch, over 1,200 symbols of a simple generator. */
int main(void) {
  unsigned int seed = 7;
  int state = 0;
  int count = 0;
  int i;
  int symbol;
  for (i = 0; i < 1200; i++) {
    seed = seed * 1103515245u + 12345u;
    symbol = (int) (seed >> 16 & 3u);
    switch (state) {
      case 0: state = symbol == 1 ? 1 : 0; break;
      case 1: state = symbol == 2 ? 2 : symbol == 1 ? 1 : 0; break;
      case 2: if (symbol == 3) state = 3; else state = symbol == 1 ? 1 : 0; break;
      case 3: count++; state = symbol & 1 ? 4 : 5; break;
      case 4: state = 5; break;
      default: state = 0;
    }
  }
  return count % 251;
}
