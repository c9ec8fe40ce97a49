#include <stdio.h>

void number(long n)
{
    char digits[24];
    int count = 0;
    if (n < 0) {
        putchar('-');
        n = -n;
    }
    do {
        digits[count++] = '0' + n % 10;
        n /= 10;
    } while (n > 0);
    while (count > 0)
        putchar(digits[--count]);
}
void field(long n, int behind)
{
    number(n);
    putchar(behind);
}
#define N 4

void multiply(long a[N][N], long b[N][N], long c[N][N])
{
    int i, j, k;
    for (i = 0; i < N; i++)
        for (j = 0; j < N; j++) {
            long sum = 0;
            for (k = 0; k < N; k++)
                sum += a[i][k] * b[k][j];
            c[i][j] = sum;
        }
}

void show(long m[N][N])
{
    int i, j;
    for (i = 0; i < N; i++)
        for (j = 0; j < N; j++)
            field(m[i][j], j == N - 1 ? '\n' : ' ');
}

int main(void)
{
    long a[N][N], b[N][N], c[N][N], d[N][N];
    int i, j;
    for (i = 0; i < N; i++)
        for (j = 0; j < N; j++) {
            a[i][j] = i + 2 * j - 3;
            b[i][j] = (i == j) * 5 - (i < j) * 2;
        }
    multiply(a, b, c);
    show(c);
    putchar('\n');
    multiply(c, a, d);
    show(d);
    return d[3][3] & 127;
}
