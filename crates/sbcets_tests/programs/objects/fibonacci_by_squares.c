#include <stdio.h>

void number(long n)
{
    char digits[21], *p = &digits[20];
    int negative = n < 0;
    *p = 0;
    do {
        int d = n % 10;
        *--p = '0' + (d < 0 ? -d : d);
        n /= 10;
    } while (n != 0);
    if (negative)
        *--p = '-';
    while (*p)
        putchar(*p++);
}
void field(long n, int behind)
{
    number(n);
    putchar(behind);
}
typedef unsigned long pair_of_pairs[2][2];

void copy(pair_of_pairs to, pair_of_pairs from)
{
    unsigned long *t = &to[0][0], *f = &from[0][0];
    int i;
    for (i = 0; i < 4; i++)
        *t++ = *f++;
}

void times(pair_of_pairs a, pair_of_pairs b)
{
    pair_of_pairs c;
    int i, j;
    for (i = 0; i < 2; i++)
        for (j = 0; j < 2; j++)
            c[i][j] = a[i][0] * b[0][j] + a[i][1] * b[1][j];
    copy(a, c);
}

unsigned long fibonacci(int n)
{
    pair_of_pairs power = {{1, 1}, {1, 0}}, result = {{1, 0}, {0, 1}};
    while (n > 0) {
        if (n & 1)
            times(result, power);
        times(power, power);
        n >>= 1;
    }
    return result[0][1];
}

int main(void)
{
    int i;
    for (i = 0; i <= 15; i++)
        field((long)fibonacci(i), ' ');
    putchar('\n');
    for (i = 30; i <= 90; i += 15)
        field((long)fibonacci(i), '\n');
    return (int)(fibonacci(91) % 251);
}
