/* Caesar's cipher, there and back. */
#include <stdio.h>
#include <ctype.h>
#include <string.h>

char message[] = "Veni, vidi, vici!";
char secret[64];

int turned(int c, int by)
{
    if (isupper(c))
        return 'A' + (c - 'A' + by) % 26;
    if (islower(c))
        return 'a' + (c - 'a' + by) % 26;
    return c;
}

void turn(char to[], char from[], int by)
{
    int i;

    for (i = 0; from[i] != '\0'; i++)
        to[i] = (char)turned(from[i], by);
    to[i] = '\0';
}

int main(void)
{
    printf("plain:  %s\n", message);
    turn(secret, message, 3);
    printf("secret: %s\n", secret);
    turn(secret, secret, 23);
    printf("again:  %s\n", secret);
    return strcmp(secret, message) == 0 ? 0 : 1;
}
