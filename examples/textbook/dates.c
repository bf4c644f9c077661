/* Days between dates, with names of months as an enumeration. */
#include <stdio.h>
#include <stdint.h>

typedef enum { JAN = 1, FEB, MAR, APR, MAY, JUN, JUL, AUG, SEP, OCT, NOV, DEC } Month;
typedef int32_t Day;

static const int before[13] = {0, 0, 31, 59, 90, 120, 151, 181, 212, 243, 273, 304, 334};

static int is_leap(int year)
{
    return (year % 4 == 0 && year % 100 != 0) || year % 400 == 0;
}

static Day number(int year, Month month, int day)
{
    const int y = year - 1;
    Day n = y * 365 + y / 4 - y / 100 + y / 400 + before[month] + day;
    if (month > FEB && is_leap(year))
        n++;
    return n;
}

static int length(int year, Month month)
{
    switch (month) {
    case APR:
    case JUN:
    case SEP:
    case NOV:
        return 30;
    case FEB:
        return is_leap(year) ? 29 : 28;
    default:
        return 31;
    }
}

int main(void)
{
    const Day moon = number(1969, JUL, 20);
    const Day wall = number(1989, NOV, 9);
    Month m;
    int days = 0;
    printf("from the moon to the wall: %d days\n", wall - moon);
    printf("day of the week: %d and %d\n", moon % 7, wall % 7);
    for (m = JAN; m <= DEC; m++) {
        printf("%4d", length(2024, m));
        days += length(2024, m);
    }
    printf("\nin 2024: %d\n", days);
    return 0;
}
