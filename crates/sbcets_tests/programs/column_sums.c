#include <stdio.h>

void number(long n)
{
    if (n < 0) {
        putchar('-');
        n = -n;
    }
    if (n > 9)
        number(n / 10);
    putchar('0' + n % 10);
}
void line(long n)
{
    number(n);
    putchar('\n');
}

int main(void)
{
    long first = 0, second = 0, third = 0, n = 0;
    int c, column = 0, sign = 1;
    while ((c = getchar()) != EOF) {
        if (c >= '0' && c <= '9') {
            n = n * 10 + (c - '0');
            continue;
        }
        if (c == '-') {
            sign = -1;
            continue;
        }
        if (c != ',' && c != '\n')
            continue;
        switch (column) {
        case 0: first += sign * n; break;
        case 1: second += sign * n; break;
        case 2: third += sign * n;
        }
        n = 0;
        sign = 1;
        column = c == '\n' ? 0 : column + 1;
    }
    line(first);
    line(second);
    line(third);
    return 0;
}
