#include <stdio.h>

void number(long n)
{
    if (n < 0) {
        putchar('-');
        n = -n;
    }
    if (n > 9)
        number(n / 10);
    putchar('0' + n % 10);
}
void line(long n)
{
    number(n);
    putchar('\n');
}

#define ONE 65536L

typedef long fixed;

fixed times(fixed a, fixed b)
{
    return a * b / ONE;
}

/* a polynomial of the fifth degree, for angles from 0 to a quarter turn */
fixed sine(fixed x)
{
    fixed square = times(x, x);
    fixed sum = ONE - times(square, ONE / 20);
    sum = ONE - times(times(square, ONE / 6), sum);
    return times(x, sum);
}

int main(void)
{
    fixed x;
    for (x = 0; x <= ONE * 3 / 2; x += ONE / 8)
        line(sine(x) * 1000 / ONE);
    return sine(ONE) * 100 / ONE;
}
