#include <stdio.h>

void number(long n)
{
    if (n < 0) {
        putchar('-');
        n = -n;
    }
    if (n > 9)
        number(n / 10);
    putchar('0' + n % 10);
}
void line(long n)
{
    number(n);
    putchar('\n');
}

typedef int (predicate)(int);

predicate is_narcissistic;

int power(int base, int exponent)
{
    return exponent == 0 ? 1 : base * power(base, exponent - 1);
}

int digits(int n)
{
    return n < 10 ? 1 : 1 + digits(n / 10);
}

int is_narcissistic(int n)
{
    int m, sum = 0;
    for (m = n; m; m /= 10)
        sum += power(m % 10, digits(n));
    return sum == n;
}

int main(void)
{
    int n;
    for (n = 1; n < 1700; n++)
        if (is_narcissistic(n))
            line(n);
    return 0;
}
