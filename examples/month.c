// The calendar of a month, told by macros: another month is another line here. `#define JULIAN` before them gives the
// old calendar's leap years.
#include <stdio.h>

#define YEAR 2024
#define MONTH 2
#define WEEK 7
#define LINE putchar('\n')

#ifdef JULIAN
#define IS_LEAP (YEAR % 4 == 0)
#else
#define IS_LEAP (YEAR % 4 == 0 && (YEAR % 100 != 0 || YEAR % 400 == 0))
#endif

// January and February belong to the year before, so that a leap day is its last one.
#define SHIFT (MONTH < 3)
#define SHIFTED (YEAR - SHIFT)

int lengths[12] = {31, 28 + IS_LEAP, 31, 30, 31, 30, 31, 31, 30, 31, 30, 31};
int starts[12] = {0, 3, 2, 5, 0, 3, 5, 1, 4, 6, 2, 4};

void put(int day) {
  putchar(day < 10 ? ' ' : '0' + day / 10);
  putchar('0' + day % 10);
  putchar(' ');
}

int main(void) {
  int first = (SHIFTED + SHIFTED / 4 - SHIFTED / 100 + SHIFTED / 400 + starts[MONTH - 1] + 1) % WEEK;
  int day;
  for (day = 0; day < 3 * first; day++) putchar(' ');
  for (day = 1; day <= lengths[MONTH - 1]; day++) {
    put(day);
    if ((first + day) % WEEK == 0) LINE;
  }
  if ((first + lengths[MONTH - 1]) % WEEK != 0) LINE;
  return lengths[MONTH - 1];
}
