/* A calculator of sums of the input, a line each, by recursive descent: numbers, + - * / and parentheses. */
#include <stdio.h>
#include <ctype.h>

int next;

void step(void)
{
    next = getchar();
    while (next == ' ')
        next = getchar();
}

long sum(void);

long unit(void)
{
    long value = 0;

    if (next == '(') {
        step();
        value = sum();
        if (next == ')')
            step();
        return value;
    }
    if (next == '-') {
        step();
        return -unit();
    }
    while (isdigit(next)) {
        value = value * 10 + next - '0';
        step();
    }
    return value;
}

long product(void)
{
    long value = unit();

    while (next == '*' || next == '/') {
        int divides = next == '/';
        long right;
        step();
        right = unit();
        if (divides)
            value = right == 0 ? 0 : value / right;
        else
            value *= right;
    }
    return value;
}

long sum(void)
{
    long value = product();

    while (next == '+' || next == '-') {
        int minus = next == '-';
        long right;
        step();
        right = product();
        value = minus ? value - right : value + right;
    }
    return value;
}

int main(void)
{
    int lines = 0;

    step();
    while (next != EOF) {
        printf("= %ld\n", sum());
        lines++;
        while (next != '\n' && next != EOF)
            step();
        if (next == '\n')
            step();
    }
    return lines;
}
