#include <stdio.h>

void number(long n)
{
    if (n < 0) {
        putchar('-');
        n = -n;
    }
    if (n > 9)
        number(n / 10);
    putchar('0' + n % 10);
}
void line(long n)
{
    number(n);
    putchar('\n');
}

int fib(int n)
{
    return n < 2 ? n : fib(n - 1) + fib(n - 2);
}

unsigned long long fast(int n)
{
    unsigned long long a = 0, b = 1, c;
    while (n-- > 0) {
        c = a + b;
        a = b;
        b = c;
    }
    return a;
}

int main(void)
{
    int n;
    for (n = 0; n <= 16; n++)
        line(fib(n));
    for (n = 60; n < 92; n += 6)
        line(fast(n));
    return fib(13);
}
