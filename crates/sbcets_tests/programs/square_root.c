#include <stdio.h>

void number(long n)
{
    if (n < 0) {
        putchar('-');
        n = -n;
    }
    if (n > 9)
        number(n / 10);
    putchar('0' + n % 10);
}
void line(long n)
{
    number(n);
    putchar('\n');
}

unsigned long root(unsigned long n)
{
    unsigned long bit = 1UL << 62, result = 0;
    while (bit > n)
        bit >>= 2;
    while (bit != 0) {
        if (n >= result + bit) {
            n -= result + bit;
            result = (result >> 1) + bit;
        } else
            result >>= 1;
        bit >>= 2;
    }
    return result;
}

int main(void)
{
    unsigned long n = 2;
    int i;
    for (i = 0; i < 12; i++) {
        line(root(n));
        n = n * 37 + 5;
    }
    line(root(18446744073709551615UL));
    return root(40000) - 100;
}
