#include <stdio.h>

void number(long n)
{
    if (n < 0) {
        putchar('-');
        n = -n;
    }
    if (n > 9)
        number(n / 10);
    putchar('0' + n % 10);
}
void line(long n)
{
    number(n);
    putchar('\n');
}

long cube_root(long n)
{
    long low = 0, high = 2097152;
    while (low + 1 < high) {
        long middle = low + (high - low) / 2;
        if (middle * middle * middle <= n)
            low = middle;
        else
            high = middle;
    }
    return low;
}

int main(void)
{
    long n;
    for (n = 1; n < 4000000000000000000; n = n * 17 + 11)
        line(cube_root(n));
    return cube_root(1000000);
}
