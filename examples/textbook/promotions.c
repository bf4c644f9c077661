/* The types of expressions, by their sizes: promotions and the usual arithmetic conversions. */
#include <stdio.h>

static const short table[] = {1, 2, 3, 5, 8};
extern const short table[];

int main(void)
{
    char c = 'a';
    unsigned char u = 200;
    int i = 2;
    long n = 3;

    printf("constants     'a' %zu, 1 %zu, 1L %zu, 0xFFFFFFFF %zu, 4294967295 %zu\n", sizeof 'a', sizeof 1, sizeof 1L,
           sizeof 0xFFFFFFFF, sizeof 4294967295);
    printf("objects       c %zu, u %zu, i %zu, n %zu\n", sizeof c, sizeof(u), sizeof i, sizeof n);
    printf("promoted      +c %zu, -u %zu, ~table[0] %zu, !n %zu, -n %zu\n", sizeof +c, sizeof -u, sizeof ~table[0],
           sizeof !n, sizeof -n);
    printf("of two        c + u %zu, c + i %zu, i * n %zu, u | 1L %zu\n", sizeof(c + u), sizeof(c + i), sizeof(i * n),
           sizeof(u | 1L));
    printf("shifted       c << n %zu, n >> c %zu\n", sizeof(c << n), sizeof(n >> c));
    printf("compared      n < i %zu, n && n %zu, (i == 2) + n %zu\n", sizeof(n < i), sizeof(n && n),
           sizeof((i == 2) + n));
    printf("converted     (long)c %zu, (char)n %zu, (char)n + c %zu\n", sizeof((long)c), sizeof((char)n),
           sizeof((char)n + c));
    printf("not evaluated i = n %zu, i += 7 %zu, i is %d\n", sizeof(i = n), sizeof(i += 7), i);
    printf("elements      %zu of %zu bytes, table[i + 1] * n %zu\n", sizeof table / sizeof table[i + 1],
           sizeof table[0], sizeof(table[i + 1] * n));
    printf("%d\n", c + u > 255 && (unsigned char)(c + u) < 255);
    return 0;
}
