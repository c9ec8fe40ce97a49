#include <stdio.h>

void number(long n)
{
    if (n < 0) {
        putchar('-');
        n = -n;
    }
    if (n > 9)
        number(n / 10);
    putchar('0' + n % 10);
}

/* digits of pi from Machin's formula, in fixed point of 15 places */
#define SCALE 1000000000000000L

long arctangent(long x)
{
    long power = SCALE / x, sum = power, n = 1;
    int sign = -1;
    while (power > 0) {
        power /= x * x;
        n += 2;
        sum += sign * (power / n);
        sign = -sign;
    }
    return sum;
}

int main(void)
{
    long pi = 4 * (4 * arctangent(5) - arctangent(239));
    number(pi / SCALE);
    putchar('.');
    number(pi % SCALE / 1000);
    putchar('\n');
    return 0;
}
