/* Numbers in the bases that printf has, and in base two. */
#include <stdio.h>

unsigned numbers[] = { 0u, 1u, 8u, 10u, 255u, 4096u, 65535u, 2147483648u, 4294967295u };

void binary(unsigned n)
{
    if (n > 1)
        binary(n / 2);
    putchar('0' + (int)(n % 2));
}

int main(void)
{
    int i;

    printf("%10s %12s %9s %11s  %s\n", "decimal", "octal", "hex", "HEX", "binary");
    for (i = 0; i < 9; i++) {
        printf("%10u %12o %9x %#11X  ", numbers[i], numbers[i], numbers[i], numbers[i]);
        binary(numbers[i]);
        printf("\n");
    }
    printf("[%5d] [%-5d] [%05d] [%+d] [% d] [%.3d]\n", 42, 42, 42, 42, 42, 7);
    printf("[%d] [%ld] [%c] [%%] [%s]\n", -2147483647 - 1, -9223372036854775807L - 1, 'x', "text");
    return 0;
}
