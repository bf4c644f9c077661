/* Brackets that match, by a stack. */
#include <stdio.h>
#include <stddef.h>

#define DEPTH 32

typedef unsigned char byte;

static byte stack[DEPTH];
static size_t top = 0;

static void push(byte b)
{
    stack[top++] = b;
}

static byte pop(void)
{
    return stack[--top];
}

static int matches(const char *text)
{
    size_t i;
    top = 0;
    for (i = 0; text[i] != '\0'; i++) {
        switch (text[i]) {
        case '(':
            push(')');
            break;
        case '[':
            push(']');
            break;
        case '{':
            push('}');
            break;
        case ')':
        case ']':
        case '}':
            if (top == 0 || pop() != text[i])
                return (int)i;
            break;
        default:
            break;
        }
    }
    return top == 0 ? -1 : (int)i;
}

int main(void)
{
    printf("%d\n", matches("int main(void) { return a[(1 + 2) * 3]; }"));
    printf("%d\n", matches("f(a[1)]"));
    printf("%d\n", matches("{ ( [ ] )"));
    printf("%zu bytes an entry, %zu in all\n", sizeof(byte), sizeof(byte) * DEPTH);
    return 0;
}
