#include <stdio.h>

void number(long n)
{
    if (n < 0) {
        putchar('-');
        n = -n;
    }
    if (n > 9)
        number(n / 10);
    putchar('0' + n % 10);
}
void line(long n)
{
    number(n);
    putchar('\n');
}
void hexadecimal(unsigned long n, int digits)
{
    int digit;
    if (digits > 1)
        hexadecimal(n >> 4, digits - 1);
    digit = n & 15;
    putchar(digit < 10 ? '0' + digit : 'a' + digit - 10);
}

unsigned long next(unsigned long x)
{
    x ^= x << 13;
    x ^= x >> 7;
    x ^= x << 17;
    return x;
}

int main(void)
{
    unsigned long x = 88172645463325252UL;
    int i, low = 0, high = 0;
    for (i = 0; i < 500; i++) {
        x = next(x);
        if (x % 100 < 50)
            low++;
        else
            high++;
        if (i % 100 == 0) {
            hexadecimal(x, 16);
            putchar('\n');
        }
    }
    line(low);
    line(high);
    return 0;
}
