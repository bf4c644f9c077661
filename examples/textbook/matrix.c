/* Powers of a matrix, held in local arrays with values. */
#include <stdio.h>

enum { N = 3 };
typedef long long number;

static void multiply(number a[N][N], number b[N][N], number c[N][N])
{
    for (int i = 0; i < N; i++)
        for (int j = 0; j < N; j++) {
            number sum = 0;
            for (int k = 0; k < N; k++)
                sum += a[i][k] * b[k][j];
            c[i][j] = sum;
        }
}

static void copy(number from[N][N], number to[N][N])
{
    for (int i = 0; i < N; i++)
        for (int j = 0; j < N; j++)
            to[i][j] = from[i][j];
}

static void show(number m[N][N])
{
    for (int i = 0; i < N; i++) {
        for (int j = 0; j < N; j++)
            printf("%8lld", m[i][j]);
        putchar('\n');
    }
}

int main(void)
{
    number m[N][N] = {{1, 1, 0}, {1, 0, 1}, {0, 1, 1}};
    number power[N][N] = {{1}, {0, 1}, {0, 0, 1}};
    number next[N][N];
    for (int i = 1; i <= 12; i++) {
        multiply(power, m, next);
        copy(next, power);
    }
    show(power);
    return 0;
}
