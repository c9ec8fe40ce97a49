#include <stdio.h>

void number(long n)
{
    char digits[24];
    int count = 0;
    if (n < 0) {
        putchar('-');
        n = -n;
    }
    do {
        digits[count++] = '0' + n % 10;
        n /= 10;
    } while (n > 0);
    while (count > 0)
        putchar(digits[--count]);
}
void field(long n, int behind)
{
    number(n);
    putchar(behind);
}
#define N 5

int rows_swapped(long m[N][N], int k)
{
    int i, j;
    for (i = k + 1; i < N; i++)
        if (m[i][k] != 0) {
            for (j = 0; j < N; j++) {
                long t = m[i][j];
                m[i][j] = m[k][j];
                m[k][j] = t;
            }
            return 1;
        }
    return 0;
}

/* elimination without fractions: each division is exact */
long determinant(long m[N][N])
{
    long before = 1, sign = 1;
    int i, j, k;
    for (k = 0; k < N - 1; k++) {
        if (m[k][k] == 0) {
            if (!rows_swapped(m, k))
                return 0;
            sign = -sign;
        }
        for (i = k + 1; i < N; i++)
            for (j = k + 1; j < N; j++)
                m[i][j] = (m[i][j] * m[k][k] - m[i][k] * m[k][j]) / before;
        before = m[k][k];
    }
    return sign * m[N - 1][N - 1];
}

long table[3][N][N] = {
    {{2, 0, 0, 0, 1}, {0, 3, 0, 1, 0}, {0, 0, 5, 0, 0}, {0, 1, 0, 7, 0}, {1, 0, 0, 0, 11}},
    {{0, 1, 2, 3, 4}, {1, 0, 1, 2, 3}, {2, 1, 0, 1, 2}, {3, 2, 1, 0, 1}, {4, 3, 2, 1, 0}},
    {{1, 2, 3, 4, 5}, {2, 4, 6, 8, 10}, {0, 1, 0, 1, 0}, {7, 7, 7, 7, 7}, {1, 0, 0, 0, 1}}
};

int main(void)
{
    int t;
    for (t = 0; t < 3; t++)
        field(determinant(table[t]), '\n');
    return 0;
}
