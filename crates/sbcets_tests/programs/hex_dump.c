#include <stdio.h>

void hexadecimal(unsigned long n, int digits)
{
    int digit;
    if (digits > 1)
        hexadecimal(n >> 4, digits - 1);
    digit = n & 15;
    putchar(digit < 10 ? '0' + digit : 'a' + digit - 10);
}

int main(void)
{
    int c, at = 0;
    while ((c = getchar()) != EOF) {
        if (at % 16 == 0) {
            hexadecimal(at, 4);
            putchar(':');
        }
        putchar(' ');
        hexadecimal(c, 2);
        if (++at % 16 == 0)
            putchar('\n');
    }
    if (at % 16 != 0)
        putchar('\n');
    return at & 0x7f;
}
