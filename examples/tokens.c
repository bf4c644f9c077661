#include <stdio.h>

/* Counts the names, numbers and marks of its input by a table of states and classes of bytes, puts the three
   numbers out, and returns their sum. */
int class_of(int c) {
  switch (c) {
    case EOF: case ' ': case '\n': case '\t': return 0;
    case '0': case '1': case '2': case '3': case '4': case '5': case '6': case '7': case '8': case '9': return 2;
    case '_': return 1;
    default: return c >= 'a' && c <= 'z' || c >= 'A' && c <= 'Z' ? 1 : 3;
  }
}

/* The next state by the state and the class: 0 between tokens, 1 in a name, 2 in a number, 3 behind a mark. */
char next[4][4] = {
  { 0, 1, 2, 3 },
  { 0, 1, 1, 3 },
  { 0, 2, 2, 3 },
  { 0, 1, 2, 3 },
};

/* Whether the step ends a token, and of which sort. */
char ended[4][4] = {
  { 0 },
  { 1, 0, 0, 1 },
  { 2, 0, 0, 2 },
  { 3, 3, 3, 3 },
};

void put_number(int n) {
  if (n > 9) put_number(n / 10);
  putchar('0' + n % 10);
}

int main(void) {
  int counts[4];
  int state = 0;
  int c;
  int i;
  for (i = 0; i < 4; i++) counts[i] = 0;
  do {
    int class;
    c = getchar();
    class = class_of(c);
    counts[ended[state][class]]++;
    state = next[state][class];
  } while (c != EOF);
  for (i = 1; i < 4; i++) {
    put_number(counts[i]);
    putchar(i == 3 ? '\n' : ' ');
  }
  return counts[1] + counts[2] + counts[3];
}
