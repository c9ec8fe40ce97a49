#include <stdio.h>

void hexadecimal(unsigned long n, int digits)
{
    int digit;
    if (digits > 1)
        hexadecimal(n >> 4, digits - 1);
    digit = n & 15;
    putchar(digit < 10 ? '0' + digit : 'a' + digit - 10);
}
void number(long n)
{
    if (n < 0) {
        putchar('-');
        n = -n;
    }
    if (n > 9)
        number(n / 10);
    putchar('0' + n % 10);
}

int main(void)
{
    unsigned int point = 0;
    int c, more = 0, count = 0;
    while ((c = getchar()) != EOF) {
        if (more > 0 && (c & 0xc0) == 0x80) {
            point = point << 6 | (c & 0x3f);
            if (--more > 0)
                continue;
        } else if (c < 0x80) {
            point = c;
            more = 0;
        } else if (c >= 0xf0) {
            point = c & 7;
            more = 3;
            continue;
        } else if (c >= 0xe0) {
            point = c & 15;
            more = 2;
            continue;
        } else {
            point = c & 31;
            more = 1;
            continue;
        }
        hexadecimal(point, point > 0xffff ? 6 : 4);
        putchar(++count % 8 ? ' ' : '\n');
    }
    putchar('\n');
    number(count);
    putchar('\n');
    return more;
}
