#include <stdio.h>

void number(long n)
{
    if (n < 0) {
        putchar('-');
        n = -n;
    }
    if (n > 9)
        number(n / 10);
    putchar('0' + n % 10);
}
void hexadecimal(unsigned long n, int digits)
{
    int digit;
    if (digits > 1)
        hexadecimal(n >> 4, digits - 1);
    digit = n & 15;
    putchar(digit < 10 ? '0' + digit : 'a' + digit - 10);
}

int ones(unsigned long n)
{
    int count = 0;
    for (; n; n &= n - 1)
        count++;
    return count;
}

unsigned int reversed(unsigned int n)
{
    n = (n & 0x55555555u) << 1 | (n >> 1 & 0x55555555u);
    n = (n & 0x33333333u) << 2 | (n >> 2 & 0x33333333u);
    n = (n & 0x0f0f0f0fu) << 4 | (n >> 4 & 0x0f0f0f0fu);
    n = (n & 0x00ff00ffu) << 8 | (n >> 8 & 0x00ff00ffu);
    return n << 16 | n >> 16;
}

int zeros_above(unsigned long n)
{
    int count = 0;
    if (n == 0)
        return 64;
    while (!(n >> 63)) {
        n <<= 1;
        count++;
    }
    return count;
}

int main(void)
{
    unsigned long n = 1;
    int i;
    for (i = 0; i < 10; i++) {
        number(ones(n));
        putchar(' ');
        number(zeros_above(n));
        putchar(' ');
        hexadecimal(reversed(n), 8);
        putchar('\n');
        n = n * 6364136223846793005UL + 1442695040888963407UL;
    }
    return ones(0xdeadbeef);
}
