/* The product of two matrices, and its transpose. */
#include <stdio.h>

#define N 3

int a[N][N] = { { 1, 2, 3 }, { 4, 5, 6 }, { 7, 8, 10 } };
int b[N][N] = { { 2, 0, 1 }, { 0, 3, 0 }, { 1, 0, 2 } };
int c[N][N];

void print(char name[], int m[N][N])
{
    int i, j;

    printf("%s\n", name);
    for (i = 0; i < N; i++) {
        for (j = 0; j < N; j++)
            printf("%6d", m[i][j]);
        printf("\n");
    }
}

int main(void)
{
    int i, j, k;

    for (i = 0; i < N; i++)
        for (j = 0; j < N; j++) {
            c[i][j] = 0;
            for (k = 0; k < N; k++)
                c[i][j] += a[i][k] * b[k][j];
        }
    print("a * b", c);
    for (i = 0; i < N; i++)
        for (j = 0; j < i; j++) {
            int held = c[i][j];
            c[i][j] = c[j][i];
            c[j][i] = held;
        }
    print("transposed", c);
    return c[0][0];
}
