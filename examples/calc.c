#include <stdio.h>

/* A calculator: reads numbers and the operators + - * / % behind their operands, as in `3 4 + 2 *`, and `=`, which
   puts out the number on top of the stack. Returns how many numbers are left. Other bytes are spaces; a quotient by
   0 is 0. */
long stack[32];
int height;

void push(long word) {
  if (height < 32) stack[height++] = word;
}

long pop(void) {
  if (height == 0) return 0;
  return stack[--height];
}

void put_number(long n) {
  if (n < 0) {
    putchar('-');
    n = -n;
  }
  if (n > 9) put_number(n / 10);
  putchar('0' + (int) (n % 10));
}

int main(void) {
  int c;
  int inside = 0;
  long number = 0;
  while ((c = getchar()) != EOF) {
    long right;
    switch (c) {
      case '0': case '1': case '2': case '3': case '4': case '5': case '6': case '7': case '8': case '9':
        number = (inside ? number * 10 : 0) + (c - '0');
        inside = 1;
        continue;
      default:
        break;
    }
    if (inside) push(number);
    inside = 0;
    switch (c) {
      case '+': right = pop(); push(pop() + right); break;
      case '-': right = pop(); push(pop() - right); break;
      case '*': right = pop(); push(pop() * right); break;
      case '/': case '%': {
        long left;
        right = pop();
        left = pop();
        if (right == 0) push(0);
        else push(c == '/' ? left / right : left % right);
        break;
      }
      case '=': {
        long top = pop();
        put_number(top);
        putchar('\n');
        push(top);
      }
    }
  }
  if (inside) push(number);
  return height;
}
