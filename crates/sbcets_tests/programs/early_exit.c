#include <stdio.h>
#include <stdlib.h>

void number(long n)
{
    if (n < 0) {
        putchar('-');
        n = -n;
    }
    if (n > 9)
        number(n / 10);
    putchar('0' + n % 10);
}
void line(long n)
{
    number(n);
    putchar('\n');
}

int descend(int n)
{
    line(n);
    if (n == 0) {
        exit(77);
        line(-1);
    }
    return descend(n - 1) + 1;
}

int main(void)
{
    return descend(5);
}
