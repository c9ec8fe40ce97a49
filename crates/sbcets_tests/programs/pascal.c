#include <stdio.h>

void number(long n)
{
    if (n < 0) {
        putchar('-');
        n = -n;
    }
    if (n > 9)
        number(n / 10);
    putchar('0' + n % 10);
}

long binomial(int n, int k)
{
    long result = 1;
    int i;
    for (i = 1; i <= k; i++)
        result = result * (n - k + i) / i;
    return result;
}

int main(void)
{
    int n, k;
    for (n = 0; n < 12; n++) {
        for (k = 0; k <= n; k++) {
            if (k)
                putchar(' ');
            number(binomial(n, k));
        }
        putchar('\n');
    }
    number(binomial(40, 20));
    putchar('\n');
    return binomial(8, 4);
}
