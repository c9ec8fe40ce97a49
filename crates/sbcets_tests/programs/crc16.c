#include <stdio.h>

void hexadecimal(unsigned long n, int digits)
{
    int digit;
    if (digits > 1)
        hexadecimal(n >> 4, digits - 1);
    digit = n & 15;
    putchar(digit < 10 ? '0' + digit : 'a' + digit - 10);
}

typedef unsigned short half;

half crc_of_byte(half crc, unsigned char byte)
{
    int i = 8;
    crc ^= byte << 8;
    do {
        if (crc & 0x8000)
            crc = crc << 1 ^ 0x1021;
        else
            crc <<= 1;
    } while (--i);
    return crc;
}

int main(void)
{
    half crc = 0xffff;
    int c;
    for (c = getchar(); c != -1; c = getchar())
        crc = crc_of_byte(crc, c);
    hexadecimal(crc, 4);
    putchar('\n');
    return crc & 0xff;
}
