#include <stdio.h>

/* Puts its input out without the comments of C, each of which becomes a space, and returns how many there were. A
   machine of seven states. */
int main(void) {
  int c;
  int comments = 0;
  short state = 0;
  while ((c = getchar()) != EOF) {
    switch (state) {
      case 0: /* program text */
        switch (c) {
          case '/': state = 1; continue;
          case '"': state = 5; break;
          case '\'': state = 6;
        }
        putchar(c);
        break;
      case 1: /* behind a slash */
        switch (c) {
          case '*': state = 2; break;
          case '/': state = 4; break;
          default:
            putchar('/');
            putchar(c);
            state = 0;
        }
        if (state) {
          comments++;
          putchar(' ');
        }
        break;
      case 3: /* behind an asterisk in a comment */
        if (c == '/') {
          state = 0;
          break;
        }
        state = 2;
      case 2: /* in a comment */
        if (c == '*') state = 3;
        break;
      case 4: /* in a comment up to the end of its line */
        if (c != '\n') break;
        state = 0;
        putchar(c);
        break;
      case 5: case 6: /* in a string or a character constant */
        putchar(c);
        if (c == '\\') putchar(getchar());
        else if (c == (state == 5 ? '"' : '\'')) state = 0;
        break;
      default:
        return -1;
    }
  }
  if (state == 1) putchar('/');
  return comments;
}
