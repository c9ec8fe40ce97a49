#include <stdio.h>

void number(long n)
{
    char digits[24];
    int count = 0;
    if (n < 0) {
        putchar('-');
        n = -n;
    }
    do {
        digits[count++] = '0' + n % 10;
        n /= 10;
    } while (n > 0);
    while (count > 0)
        putchar(digits[--count]);
}
void field(long n, int behind)
{
    number(n);
    putchar(behind);
}
enum { N = 9, NONE = 0x3fffffff };

typedef int table[N][N];

void start(table t)
{
    int i, j;
    for (i = 0; i < N; i++)
        for (j = 0; j < N; j++)
            t[i][j] = i == j ? 0 : NONE;
}

void close(table t, table via)
{
    int i, j, k;
    for (k = 0; k < N; k++)
        for (i = 0; i < N; i++) {
            if (t[i][k] == NONE)
                continue;
            for (j = 0; j < N; j++)
                if (t[k][j] != NONE && t[i][k] + t[k][j] < t[i][j]) {
                    t[i][j] = t[i][k] + t[k][j];
                    via[i][j] = k + 1;
                }
        }
}

int main(void)
{
    static table t, via;
    int i, j, sum = 0;
    start(t);
    for (i = 0; i < N; i++) {
        int *row = t[i];
        row[(i + 1) % N] = 4 + i % 3;
        row[(i * 5 + 2) % N] = 9;
        if (i % 4 == 0)
            row[i] = 0;
    }
    close(t, via);
    for (i = 0; i < N; i += 4)
        for (j = 0; j < N; j++) {
            field(t[i][j], j + 1 < N ? ' ' : '\n');
        }
    for (i = 0; i < N; i++)
        for (j = 0; j < N; j++)
            sum += via[i][j];
    return sum & 255;
}
