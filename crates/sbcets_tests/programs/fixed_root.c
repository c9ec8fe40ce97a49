#include <stdio.h>

void number(long n)
{
    if (n < 0) {
        putchar('-');
        n = -n;
    }
    if (n > 9)
        number(n / 10);
    putchar('0' + n % 10);
}

long root(long n, int places)
{
    long scaled = n, x, next;
    while (places-- > 0)
        scaled *= 100;
    x = scaled;
    for (;;) {
        next = (x + scaled / x) / 2;
        if (next >= x)
            return x;
        x = next;
    }
}

int main(void)
{
    int n;
    for (n = 2; n < 30; n++) {
        long r = root(n, 6);
        number(r / 1000000);
        putchar('.');
        r %= 1000000;
        if (r < 100000) putchar('0');
        if (r < 10000) putchar('0');
        if (r < 1000) putchar('0');
        number(r);
        putchar('\n');
    }
    return 0;
}
