#include <stdio.h>

void number(long n)
{
    if (n < 0) {
        putchar('-');
        n = -n;
    }
    if (n > 9)
        number(n / 10);
    putchar('0' + n % 10);
}
void line(long n)
{
    number(n);
    putchar('\n');
}

long gcd(long a, long b)
{
    while (b != 0) {
        long rest = a % b;
        a = b;
        b = rest;
    }
    return a;
}

long lcm(long a, long b)
{
    return a / gcd(a, b) * b;
}

int main(void)
{
    long a, b;
    for (a = 12; a <= 96; a += 28)
        for (b = 18; b < 200; b = b * 2 + 3) {
            number(gcd(a, b));
            putchar(' ');
            line(lcm(a, b));
        }
    return gcd(1071, 462);
}
