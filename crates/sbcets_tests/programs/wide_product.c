#include <stdio.h>

void hexadecimal(unsigned long n, int digits)
{
    int digit;
    if (digits > 1)
        hexadecimal(n >> 4, digits - 1);
    digit = n & 15;
    putchar(digit < 10 ? '0' + digit : 'a' + digit - 10);
}

/* the upper half of a product of 64 bits by 64 bits, by halves */
unsigned long upper(unsigned long a, unsigned long b)
{
    unsigned long a_low = a & 0xffffffff, a_high = a >> 32;
    unsigned long b_low = b & 0xffffffff, b_high = b >> 32;
    unsigned long low = a_low * b_low;
    unsigned long middle = a_high * b_low + (low >> 32);
    unsigned long other = a_low * b_high + (middle & 0xffffffff);
    return a_high * b_high + (middle >> 32) + (other >> 32);
}

int main(void)
{
    unsigned long a = 0x0123456789abcdefUL, b = 0xfedcba9876543210UL;
    int i;
    for (i = 0; i < 8; i++) {
        hexadecimal(upper(a, b), 16);
        putchar(' ');
        hexadecimal(a * b, 16);
        putchar('\n');
        a = a * 3 + b;
        b = b ^ a >> 7;
    }
    return upper(0xffffffffffffffffUL, 256);
}
