#include <stdio.h>

void number(unsigned long n)
{
    if (n > 9)
        number(n / 10);
    putchar('0' + n % 10);
}

int digits(unsigned long n)
{
    int count = 1;
    while (n > 9) {
        n /= 10;
        count++;
    }
    return count;
}

void padded(unsigned long n, int width)
{
    int i;
    for (i = digits(n); i < width; i++)
        putchar(' ');
    number(n);
}

unsigned long power(unsigned long base, int exponent)
{
    unsigned long result = 1;
    while (exponent-- > 0)
        result *= base;
    return result;
}

int main(void)
{
    int base, exponent;
    for (exponent = 0; exponent < 14; exponent++) {
        for (base = 2; base < 10; base++)
            padded(power(base, exponent), exponent + 3);
        putchar('\n');
    }
    return digits(power(13, 17));
}
