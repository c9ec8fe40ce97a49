#include <stdio.h>

void number(long n)
{
    if (n < 0) {
        putchar('-');
        n = -n;
    }
    if (n > 9)
        number(n / 10);
    putchar('0' + n % 10);
}
void line(long n)
{
    number(n);
    putchar('\n');
}

int seeded(int seed)
{
    return seed * 1103515245 + 12345;
}

int main(void)
{
    int seed = 1, i, ones = 0;
    for (i = 0; i < 20; i++) {
        seed = seeded(seed);
        line(seed);
        line(seed / 65536 % 32768);
        ones += seed >> 16 & 1;
    }
    return ones;
}
