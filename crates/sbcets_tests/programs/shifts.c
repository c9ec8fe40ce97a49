#include <stdio.h>

void number(long n)
{
    if (n < 0) {
        putchar('-');
        n = -n;
    }
    if (n > 9)
        number(n / 10);
    putchar('0' + n % 10);
}
void line(long n)
{
    number(n);
    putchar('\n');
}

int main(void)
{
    int i;
    long n = -123456789;
    unsigned long u = n;
    short s = -2;
    for (i = 0; i < 64; i += 9) {
        line(n >> i);
        line(u >> i);
        line(1L << i);
    }
    for (i = 0; i < 32; i += 5) {
        line(-1 >> i);
        line(0xffffffffu >> i);
        line(1 << i);
    }
    line(s >> 1);
    line(s << 3);
    return 1 << 6;
}
