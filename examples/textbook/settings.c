/* Settings of the input, a line each as `name = number`; the first line that is none ends the run with its number. */
#include <stdio.h>
#include <stdlib.h>
#include <ctype.h>

#define NAME_LENGTH 16

static int line = 1;
static int next;

static void fail(const char *reason)
{
    printf("line %d: %s\n", line, reason);
    exit(line);
}

static void step(void)
{
    next = getchar();
    while (next == ' ')
        next = getchar();
}

static void name(char text[])
{
    int length = 0;

    if (!isalpha(next))
        fail("a name is missing");
    while (isalnum(next)) {
        if (length == NAME_LENGTH - 1)
            fail("the name is too long");
        text[length++] = next;
        next = getchar();
    }
    text[length] = '\0';
    if (next == ' ')
        step();
}

static int number(void)
{
    int value = 0;

    if (!isdigit(next))
        fail("a number is missing");
    while (isdigit(next)) {
        value = 10 * value + next - '0';
        if (value > 9999)
            fail("the number is too great");
        next = getchar();
    }
    if (next == ' ')
        step();
    return value;
}

static void setting(void)
{
    char text[NAME_LENGTH];
    int value;

    name(text);
    if (next != '=')
        fail("a = is missing");
    step();
    value = number();
    if (next != '\n' && next != EOF)
        fail("the line is too long");
    printf("%-8s %4d\n", text, value);
}

int main(void)
{
    step();
    while (next != EOF) {
        setting();
        line++;
        step();
    }
    printf("%d settings\n", line - 1);
    return 0;
}
