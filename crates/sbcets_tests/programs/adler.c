#include <stdio.h>

void hexadecimal(unsigned long n, int digits)
{
    int digit;
    if (digits > 1)
        hexadecimal(n >> 4, digits - 1);
    digit = n & 15;
    putchar(digit < 10 ? '0' + digit : 'a' + digit - 10);
}

int main(void)
{
    unsigned long a = 1, b = 0;
    int c;
    while (1) {
        c = getchar();
        if (c < 0)
            break;
        a = (a + c) % 65521;
        b = (b + a) % 65521;
    }
    hexadecimal(b << 16 | a, 8);
    putchar('\n');
    return 0;
}
