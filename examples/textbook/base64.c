/* Base64 of some texts. */
#include <stdio.h>
#include <string.h>

char letters[] = "ABCDEFGHIJKLMNOPQRSTUVWXYZabcdefghijklmnopqrstuvwxyz0123456789+/";

void encode(char s[])
{
    int n = (int)strlen(s);
    int i;

    printf("%-14s ", s);
    for (i = 0; i < n; i += 3) {
        int left = n - i;
        int word = (s[i] & 255) << 16;
        if (left > 1)
            word |= (s[i + 1] & 255) << 8;
        if (left > 2)
            word |= s[i + 2] & 255;
        putchar(letters[word >> 18 & 63]);
        putchar(letters[word >> 12 & 63]);
        putchar(left > 1 ? letters[word >> 6 & 63] : '=');
        putchar(left > 2 ? letters[word & 63] : '=');
    }
    putchar('\n');
}

int main(void)
{
    encode("Man");
    encode("Ma");
    encode("M");
    encode("hello, world");
    return 0;
}
