/* The day of the week of some dates, and leap years (Sakamoto's method). */
#include <stdio.h>

int shift[12] = { 0, 3, 2, 5, 0, 3, 5, 1, 4, 6, 2, 4 };
char names[7][10] = { "Sunday", "Monday", "Tuesday", "Wednesday", "Thursday", "Friday", "Saturday" };

int is_leap(int year)
{
    return (year % 4 == 0 && year % 100 != 0) || year % 400 == 0;
}

int weekday(int year, int month, int day)
{
    if (month < 3)
        year--;
    return (year + year / 4 - year / 100 + year / 400 + shift[month - 1] + day) % 7;
}

void name(int day)
{
    int i;

    for (i = 0; names[day][i] != '\0'; i++)
        putchar(names[day][i]);
}

void tell(int year, int month, int day)
{
    printf("%04d-%02d-%02d is a ", year, month, day);
    name(weekday(year, month, day));
    if (is_leap(year))
        printf(" of a leap year");
    printf("\n");
}

int main(void)
{
    tell(1969, 7, 20);
    tell(2000, 2, 29);
    tell(1900, 1, 1);
    tell(2024, 12, 31);
    return 0;
}
