#include <stdio.h>

void number(long n)
{
    if (n < 0) {
        putchar('-');
        n = -n;
    }
    if (n > 9)
        number(n / 10);
    putchar('0' + n % 10);
}
void line(long n)
{
    number(n);
    putchar('\n');
}

int placed(unsigned int all, unsigned int columns, unsigned int left, unsigned int right)
{
    unsigned int free_columns = all & ~(columns | left | right);
    int count = 0;
    if (columns == all)
        return 1;
    while (free_columns) {
        unsigned int one = free_columns & -free_columns;
        free_columns ^= one;
        count += placed(all, columns | one, (left | one) << 1, (right | one) >> 1);
    }
    return count;
}

int main(void)
{
    int n;
    for (n = 1; n <= 7; n++)
        line(placed((1u << n) - 1, 0, 0, 0));
    return placed(63, 0, 0, 0);
}
