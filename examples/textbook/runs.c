/* Run lengths: a text packed and unpacked. */
#include <stdio.h>
#include <ctype.h>
#include <string.h>

char text[] = "WWWWWWWWWWWWBWWWWWWWWWWWWBBBWWWWWWWWWWWWWWWWWWWWWWWWBWWWWWWWWWWWWWW";
char packed[160];
char unpacked[160];

int put_number(int at, int n)
{
    if (n >= 10)
        at = put_number(at, n / 10);
    packed[at] = (char)('0' + n % 10);
    return at + 1;
}

void pack(void)
{
    int i = 0, at = 0;

    while (text[i] != '\0') {
        int n = 1;
        while (text[i + n] == text[i])
            n++;
        at = put_number(at, n);
        packed[at++] = text[i];
        i += n;
    }
    packed[at] = '\0';
}

void unpack(void)
{
    int i, n = 0, at = 0;

    for (i = 0; packed[i] != '\0'; i++) {
        if (isdigit(packed[i]))
            n = n * 10 + packed[i] - '0';
        else
            while (n > 0) {
                unpacked[at++] = packed[i];
                n--;
            }
    }
    unpacked[at] = '\0';
}

int main(void)
{
    pack();
    unpack();
    printf("%s\n%s\n", text, packed);
    printf("%lu characters become %lu\n", (unsigned long)strlen(text), (unsigned long)strlen(packed));
    return strcmp(text, unpacked) == 0 ? 0 : 1;
}
