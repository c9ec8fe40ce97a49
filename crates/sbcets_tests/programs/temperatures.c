#include <stdio.h>

void number(long n)
{
    if (n < 0) {
        putchar('-');
        n = -n;
    }
    if (n > 9)
        number(n / 10);
    putchar('0' + n % 10);
}

void column(int n)
{
    if (n > -10)
        putchar(' ');
    if (n >= 0 && n < 100)
        putchar(' ');
    if (n >= 0 && n < 10)
        putchar(' ');
    number(n);
}

int main(void)
{
    int celsius;
    for (celsius = -40; celsius <= 100; celsius += 10) {
        int tenths = celsius * 18 + 320;
        column(celsius);
        putchar(' ');
        column(tenths / 10);
        putchar('.');
        putchar('0' + (tenths < 0 ? -tenths : tenths) % 10);
        putchar('\n');
    }
    return 0;
}
