#include <stdio.h>

void number(long n)
{
    if (n < 0) {
        putchar('-');
        n = -n;
    }
    if (n > 9)
        number(n / 10);
    putchar('0' + n % 10);
}
void line(long n)
{
    number(n);
    putchar('\n');
}

int count(int n)
{
    putchar('a' + n);
    return n;
}

int main(void)
{
    int a = 7, b = -3, c;
    unsigned int u = 5;
    line(a / b);
    line(a % b);
    line(-a / 2);
    line(-a % 2);
    line(a & b | a ^ b);
    line(~a << 2);
    line(b >> 1);
    line(u - 6);
    line((u - 6) / 2);
    line(!a + !!b);
    c = (a += 3, b *= a, a -= b);
    line(a);
    line(b);
    line(c);
    c = count(0) && count(1) || count(2);
    putchar('\n');
    line(c);
    c = count(3) || count(4) && count(5);
    putchar('\n');
    line(c);
    line(a++ + ++b);
    line(a-- - --b);
    a <<= 3;
    b >>= 2;
    a %= 100;
    b ^= 0x55;
    u |= 0x80000000;
    u /= 3;
    line(a);
    line(b);
    line(u);
    line(a > b ? a == b ? 1 : 2 : 3);
    return (a, b, 42);
}
