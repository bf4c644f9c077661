/* A text in the code of Morse. */
#include <stdio.h>
#include <ctype.h>
#include <string.h>

enum { LONGEST = 5 };

static const char codes[26][LONGEST] = {
    ".-", "-...", "-.-.", "-..", ".", "..-.", "--.", "....", "..", ".---", "-.-", ".-..", "--",
    "-.", "---", ".--.", "--.-", ".-.", "...", "-", "..-", "...-", ".--", "-..-", "-.--", "--..",
};

static void send(const char *text)
{
    const size_t length = strlen(text);
    for (size_t i = 0; i < length; i++) {
        const int c = toupper((unsigned char)text[i]);
        if (isupper(c)) {
            for (int k = 0; k < LONGEST && codes[c - 'A'][k] != '\0'; k++)
                putchar(codes[c - 'A'][k]);
            putchar(' ');
        } else {
            printf("/ ");
        }
    }
    putchar('\n');
}

int main(void)
{
    char word[] = "explicit data graph execution";
    send("SOS");
    send("Hello world");
    word[0] = 'E';
    send(word);
    return 0;
}
