#include <stdio.h>

void hexadecimal(unsigned long n, int digits)
{
    int digit;
    if (digits > 1)
        hexadecimal(n >> 4, digits - 1);
    digit = n & 15;
    putchar(digit < 10 ? '0' + digit : 'a' + digit - 10);
}

unsigned int with_byte(unsigned int crc, int byte)
{
    int bit;
    crc ^= byte;
    for (bit = 0; bit < 8; bit++)
        crc = crc & 1 ? crc >> 1 ^ 0xedb88320u : crc >> 1;
    return crc;
}

int main(void)
{
    unsigned int crc = 0xffffffffu;
    int c;
    while ((c = getchar()) != EOF)
        crc = with_byte(crc, c);
    hexadecimal(~crc, 8);
    putchar('\n');
    return 0;
}
