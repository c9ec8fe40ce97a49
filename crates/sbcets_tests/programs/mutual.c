#include <stdio.h>

void number(long n)
{
    if (n < 0) {
        putchar('-');
        n = -n;
    }
    if (n > 9)
        number(n / 10);
    putchar('0' + n % 10);
}

int is_odd(unsigned int n);

int is_even(unsigned int n)
{
    return n == 0 || is_odd(n - 1);
}

int is_odd(unsigned int n)
{
    return n != 0 && is_even(n - 1);
}

int male(int n);

int female(int n)
{
    return n == 0 ? 1 : n - male(female(n - 1));
}

int male(int n)
{
    return n == 0 ? 0 : n - female(male(n - 1));
}

int main(void)
{
    int n;
    for (n = 0; n < 16; n++) {
        number(female(n));
        putchar(' ');
        number(male(n));
        putchar(is_even(n) ? '\n' : ';');
    }
    return is_odd(77) * 2 + is_even(77);
}
