#include <stdio.h>

int *first(int n)
{
    int cells[4] = {0};
    int *p = cells;
    cells[0] = n;
    putchar('0' + cells[0]);
    return p;
}

int second(int *old)
{
    int cells[4] = {0};
    cells[0] = 7;
    putchar('0' + cells[0]);
    return *old;
}

int main(void)
{
    return second(first(7));
}
