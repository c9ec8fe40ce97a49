#include <stdio.h>

void number(long n)
{
    char digits[24];
    int count = 0;
    if (n < 0) {
        putchar('-');
        n = -n;
    }
    do {
        digits[count++] = '0' + n % 10;
        n /= 10;
    } while (n > 0);
    while (count > 0)
        putchar(digits[--count]);
}
void field(long n, int behind)
{
    number(n);
    putchar(behind);
}
void swap(int *a, int *b)
{
    int t = *a;
    *a = *b;
    *b = t;
}

void transpose(int *m, int n)
{
    int i, j;
    for (i = 0; i < n; i++)
        for (j = i + 1; j < n; j++)
            swap(m + i * n + j, m + j * n + i);
}

void mirror(int (*m)[6])
{
    int (*row)[6];
    for (row = m; row < m + 6; row++) {
        int *left = *row, *right = *row + 5;
        while (left < right)
            swap(left++, right--);
    }
}

void show(int (*m)[6])
{
    int i, j;
    for (i = 0; i < 6; i++)
        for (j = 0; j < 6; j++)
            field(m[i][j], j < 5 ? ' ' : '\n');
}

int main(void)
{
    int m[6][6];
    int i, *p = m[0];
    for (i = 0; i < 36; i++)
        *p++ = i * i % 37;
    transpose(&m[0][0], 6);
    mirror(m);
    show(m);
    transpose(m[0], 6);
    field(m[0][5], ' ');
    field(m[5][0], '\n');
    return m[3][4];
}
