#include <stdio.h>

void number(long n)
{
    if (n < 0) {
        putchar('-');
        n = -n;
    }
    if (n > 9)
        number(n / 10);
    putchar('0' + n % 10);
}
void line(long n)
{
    number(n);
    putchar('\n');
}

long partitions(int n, int largest)
{
    if (n == 0)
        return 1;
    if (n < 0 || largest == 0)
        return 0;
    return partitions(n - largest, largest) + partitions(n, largest - 1);
}

int main(void)
{
    int n;
    for (n = 1; n < 19; n++)
        line(partitions(n, n));
    return partitions(12, 12);
}
