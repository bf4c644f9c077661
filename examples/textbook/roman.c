/* Roman numerals. */
#include <stdio.h>

int values[13] = { 1000, 900, 500, 400, 100, 90, 50, 40, 10, 9, 5, 4, 1 };
char numerals[13][3] = { "M", "CM", "D", "CD", "C", "XC", "L", "XL", "X", "IX", "V", "IV", "I" };
int years[] = { 4, 9, 14, 40, 1066, 1999, 2024 };

void roman(int n)
{
    int i;

    for (i = 0; i < 13; i++)
        while (n >= values[i]) {
            putchar(numerals[i][0]);
            if (numerals[i][1] != '\0')
                putchar(numerals[i][1]);
            n -= values[i];
        }
}

int main(void)
{
    int i;

    for (i = 0; i < 7; i++) {
        printf("%5d  ", years[i]);
        roman(years[i]);
        printf("\n");
    }
    return 0;
}
