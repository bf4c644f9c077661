/* Lines, words and characters of the input, as wc does. */
#include <stdio.h>
#include <ctype.h>

int main(void)
{
    int c;
    int lines = 0, words = 0, characters = 0, inside = 0;

    while ((c = getchar()) != EOF) {
        characters++;
        if (c == '\n')
            lines++;
        if (isspace(c))
            inside = 0;
        else if (!inside) {
            inside = 1;
            words++;
        }
    }
    printf("%7d %7d %7d\n", lines, words, characters);
    return words;
}
