#include <stdio.h>


void in_base(unsigned long n, unsigned int base)
{
    if (n >= base)
        in_base(n / base, base);
    n %= base;
    putchar(n < 10 ? n + '0' : n - 10 + 'A');
}

int main(void)
{
    unsigned int base;
    for (base = 2; base <= 36; base += base < 4 ? 1 : 4) {
        in_base(base, 10);
        putchar(':');
        putchar(' ');
        in_base(123456789012345UL, base);
        putchar('\n');
    }
    in_base(-1, 16);
    putchar('\n');
    return 0;
}
