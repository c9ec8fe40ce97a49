/* Prints the CRC-32 of its input, as zip and gzip count it: bin/sbcets go examples/crc.c <FILE */
#include <stdio.h>

typedef unsigned int word;

word with_byte(word crc, int byte)
{
    int bit;
    crc ^= byte;
    for (bit = 0; bit < 8; bit++)
        crc = crc & 1 ? crc >> 1 ^ 0xedb88320U : crc >> 1;
    return crc;
}

void print_hexadecimal(word n)
{
    int shift;
    for (shift = 28; shift >= 0; shift -= 4) {
        int digit = n >> shift & 15;
        putchar(digit < 10 ? '0' + digit : 'a' + (digit - 10));
    }
    putchar('\n');
}

int main(void)
{
    word crc = 0xffffffffU;
    int c;
    while ((c = getchar()) != EOF)
        crc = with_byte(crc, c);
    print_hexadecimal(~crc);
    return 0;
}
