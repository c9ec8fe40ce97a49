#include <stdio.h>

void number(long n)
{
    if (n < 0) {
        putchar('-');
        n = -n;
    }
    if (n > 9)
        number(n / 10);
    putchar('0' + n % 10);
}
void line(long n)
{
    number(n);
    putchar('\n');
}

void all(long n)
{
    char c = n;
    signed char sc = n;
    short s = n;
    unsigned short us = n;
    int i = n;
    unsigned int ui = n;
    line(c);
    line(sc);
    line(s);
    line(us);
    line(i);
    line(ui);
    line((unsigned char)n + (signed char)(n >> 3));
    line(c < sc);
    line(i < ui);
    line(us == s);
    line(sizeof(c + s) + sizeof(n + ui));
}

int main(void)
{
    all(0);
    all(-1);
    all(200);
    all(40000);
    all(3000000000);
    all(-3000000000);
    all(0x123456789abcdefL);
    return (signed char)0xfe + 10;
}
