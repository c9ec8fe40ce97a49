#include <stdio.h>

void number(long n)
{
    if (n < 0) {
        putchar('-');
        n = -n;
    }
    if (n > 9)
        number(n / 10);
    putchar('0' + n % 10);
}
void line(long n)
{
    number(n);
    putchar('\n');
}

long reversed(long n)
{
    long r = 0;
    for (; n > 0; n /= 10)
        r = 10 * r + n % 10;
    return r;
}

int main(void)
{
    long n, steps;
    for (n = 56; n < 196; n += 9) {
        long m = n;
        steps = 0;
        while (m != reversed(m) && steps < 30) {
            m += reversed(m);
            steps++;
        }
        number(n);
        putchar(' ');
        number(steps);
        putchar(' ');
        line(m);
    }
    return 0;
}
