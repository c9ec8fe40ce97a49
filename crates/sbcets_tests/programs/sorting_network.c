#include <stdio.h>

void number(long n)
{
    if (n < 0) {
        putchar('-');
        n = -n;
    }
    if (n > 9)
        number(n / 10);
    putchar('0' + n % 10);
}
void line(long n)
{
    number(n);
    putchar('\n');
}

int smaller(int a, int b)
{
    return a < b ? a : b;
}

int greater(int a, int b)
{
    return a < b ? b : a;
}

void sorted(int a, int b, int c, int d)
{
    int x;
    x = smaller(a, b), b = greater(a, b), a = x;
    x = smaller(c, d), d = greater(c, d), c = x;
    x = smaller(a, c), c = greater(a, c), a = x;
    x = smaller(b, d), d = greater(b, d), b = x;
    x = smaller(b, c), c = greater(b, c), b = x;
    number(a);
    putchar(' ');
    number(b);
    putchar(' ');
    number(c);
    putchar(' ');
    line(d);
}

int main(void)
{
    int a, b, c;
    for (a = -3; a < 10; a += 6)
        for (b = 7; b > -20; b -= 9)
            for (c = 0; c < 3; c++)
                sorted(a, b, c, a * b + c);
    return 0;
}
