#include <stdio.h>

void number(long n)
{
    if (n < 0) {
        putchar('-');
        n = -n;
    }
    if (n > 9)
        number(n / 10);
    putchar('0' + n % 10);
}

void part(int digit, int one, int five, int ten)
{
    if (digit == 9) {
        putchar(one);
        putchar(ten);
        return;
    }
    if (digit == 4) {
        putchar(one);
        putchar(five);
        return;
    }
    if (digit >= 5) {
        putchar(five);
        digit -= 5;
    }
    for (; digit > 0; digit--)
        putchar(one);
}

void roman(int n)
{
    part(n / 1000, 'M', '?', '?');
    part(n / 100 % 10, 'C', 'D', 'M');
    part(n / 10 % 10, 'X', 'L', 'C');
    part(n % 10, 'I', 'V', 'X');
}

int main(void)
{
    int n;
    for (n = 1; n < 4000; n = n * 2 + n % 7) {
        number(n);
        putchar(' ');
        roman(n);
        putchar('\n');
    }
    return 0;
}
