#include <stdio.h>

void number(long n)
{
    if (n < 0) {
        putchar('-');
        n = -n;
    }
    if (n > 9)
        number(n / 10);
    putchar('0' + n % 10);
}
void line(long n)
{
    number(n);
    putchar('\n');
}

int main(void)
{
    int a, b, c, count = 0;
    for (a = 1; a < 40; a++)
        for (b = a; a * a + b * b < 1600; b++)
            for (c = b; c * c <= a * a + b * b; c++)
                if (c * c == a * a + b * b) {
                    count++;
                    number(a);
                    putchar(',');
                    number(b);
                    putchar(',');
                    line(c);
                }
    return count;
}
