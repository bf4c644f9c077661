/* What words are worth, by a table whose values stand at their letters. */
#include <stdio.h>

enum bonus { NONE, DOUBLE = 2, TRIPLE };

const int worth[128] = {
    ['a'] = 1, ['b'] = 3, 3, 2, 1, 4, 2, 4, 1, 8, 5, 1, 3, 1, 1, 3, 10, 1, 1, 1, 1, 4, 4, 8, 4, 10
};
static const char words[][9] = { "quartz", "compiler", "block", "jukebox" };

static int score(const char word[], enum bonus bonus)
{
    const int factor[] = { [NONE] = 1, 1, [TRIPLE] = 3, [DOUBLE] = 2 };
    int i, sum = 0;

    for (i = 0; word[i] != '\0'; i++)
        sum += worth[(int)word[i]];
    return sum * factor[bonus];
}

int main(void)
{
    int i, sum, best = 0;

    for (i = 0; i < 4; i++) {
        char word[9] = { [8] = '\0' };
        int k;

        for (k = 0; k < 9; k++)
            word[k] = words[i][k];
        sum = score(word, i);
        printf("%-8s %3d\n", word, sum);
        if (sum > best)
            best = sum;
    }
    return best;
}
