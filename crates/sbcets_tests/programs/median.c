#include <stdio.h>

void number(long n)
{
    if (n < 0) {
        putchar('-');
        n = -n;
    }
    if (n > 9)
        number(n / 10);
    putchar('0' + n % 10);
}
void line(long n)
{
    number(n);
    putchar('\n');
}

int middle(int a, int b, int c)
{
    if (a > b) {
        if (b > c)
            return b;
        return a > c ? c : a;
    }
    if (a > c)
        return a;
    return b > c ? c : b;
}

int main(void)
{
    int a, b, c, sum = 0;
    for (a = 0; a < 7; a += 2)
        for (b = 1; b < 9; b += 3)
            for (c = 6; c >= 0; c -= 2) {
                int m = middle(a, b, c);
                sum = sum * 3 + m;
                putchar('0' + m);
            }
    putchar('\n');
    line(sum);
    return sum & 127;
}
