#include <stdio.h>

void number(long n)
{
    if (n < 0) {
        putchar('-');
        n = -n;
    }
    if (n > 9)
        number(n / 10);
    putchar('0' + n % 10);
}

unsigned int gray(unsigned int n)
{
    return n ^ n >> 1;
}

unsigned int plain(unsigned int g)
{
    unsigned int n = 0;
    while (g) {
        n ^= g;
        g >>= 1;
    }
    return n;
}

int main(void)
{
    unsigned int n, wrong = 0;
    int bit;
    for (n = 0; n < 32; n++) {
        for (bit = 4; bit >= 0; bit--)
            putchar('0' + (gray(n) >> bit & 1));
        putchar(n % 4 == 3 ? '\n' : ' ');
        if (plain(gray(n)) != n)
            wrong++;
    }
    return wrong;
}
