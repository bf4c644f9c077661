/* How often each letter stands in a text, as a table of bars. */
#include <stdio.h>
#include <ctype.h>

char text[] = "It was the best of times, it was the worst of times, it was the age of wisdom";
int counts[26];

int main(void)
{
    int i, j, total = 0;

    for (i = 0; text[i] != '\0'; i++)
        if (isalpha(text[i])) {
            counts[tolower(text[i]) - 'a']++;
            total++;
        }
    for (i = 0; i < 26; i++) {
        if (counts[i] == 0)
            continue;
        printf("%c %3d %3d%% |", 'a' + i, counts[i], counts[i] * 100 / total);
        for (j = 0; j < counts[i]; j++)
            putchar('#');
        putchar('\n');
    }
    return total;
}
