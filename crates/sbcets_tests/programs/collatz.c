#include <stdio.h>

void number(long n)
{
    if (n < 0) {
        putchar('-');
        n = -n;
    }
    if (n > 9)
        number(n / 10);
    putchar('0' + n % 10);
}
void line(long n)
{
    number(n);
    putchar('\n');
}

int steps(unsigned long n)
{
    int count = 0;
    while (n != 1) {
        n = n & 1 ? 3 * n + 1 : n / 2;
        ++count;
    }
    return count;
}

int main(void)
{
    int n, best = 1, most = 0;
    for (n = 1; n < 400; ++n) {
        int s = steps(n);
        if (s > most) {
            most = s;
            best = n;
            number(n);
            putchar(':');
            line(s);
        }
    }
    return best % 256;
}
