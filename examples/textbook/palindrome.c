/* Which sentences read the same from both ends, letters alone. */
#include <stdio.h>
#include <ctype.h>
#include <string.h>

int is_palindrome(char s[])
{
    int i = 0, j = (int)strlen(s) - 1;

    while (i < j) {
        if (!isalpha(s[i]))
            i++;
        else if (!isalpha(s[j]))
            j--;
        else if (tolower(s[i]) != tolower(s[j]))
            return 0;
        else {
            i++;
            j--;
        }
    }
    return 1;
}

void judge(char s[])
{
    printf("%-32s ", s);
    if (is_palindrome(s))
        printf("yes\n");
    else
        printf("no\n");
}

int main(void)
{
    judge("A man, a plan, a canal: Panama");
    judge("Never odd or even");
    judge("This one is not");
    judge("x");
    return 0;
}
