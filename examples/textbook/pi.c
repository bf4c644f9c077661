/* The first digits of pi, by a spigot. */
#include <stdio.h>

#define DIGITS 30
#define SIZE 101

int rests[SIZE];

int main(void)
{
    int i, j, carry, nines = 0, held = 0, shown = -1;

    for (i = 0; i < SIZE; i++)
        rests[i] = 2;
    for (j = 0; shown < DIGITS; j++) {
        carry = 0;
        for (i = SIZE - 1; i > 0; i--) {
            int x = 10 * rests[i] + carry * (i + 1);
            rests[i] = x % (2 * i + 1);
            carry = x / (2 * i + 1);
        }
        carry += 10 * rests[0];
        rests[0] = carry % 10;
        carry /= 10;
        if (carry == 9) {
            nines++;
        } else {
            int up = carry == 10;
            if (shown >= 0)
                putchar('0' + held + up);
            shown++;
            while (nines > 0) {
                putchar(up ? '0' : '9');
                shown++;
                nines--;
            }
            held = up ? 0 : carry;
            if (shown == 1)
                putchar('.');
        }
    }
    putchar('\n');
    return 0;
}
