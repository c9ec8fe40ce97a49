#include <stdio.h>

void number(long n)
{
    if (n < 0) {
        putchar('-');
        n = -n;
    }
    if (n > 9)
        number(n / 10);
    putchar('0' + n % 10);
}
void line(long n)
{
    number(n);
    putchar('\n');
}

int divisor_sum(int n)
{
    int sum = 1, d;
    for (d = 2; d * d <= n; d++)
        if (n % d == 0) {
            sum += d;
            if (d * d != n)
                sum += n / d;
        }
    return sum;
}

int main(void)
{
    int n, abundant = 0;
    for (n = 2; n < 520; n++) {
        int s = divisor_sum(n);
        if (s == n)
            line(n);
        abundant += s > n;
        if (s > n && s < 520 && divisor_sum(s) == n)
            line(-n);
    }
    line(abundant);
    return 0;
}
