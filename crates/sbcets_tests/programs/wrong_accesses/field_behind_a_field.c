#include <stdio.h>

struct point { int x, y; };

int sum(int *coordinates, int count)
{
    int s = 0, i;
    for (i = 0; i < count; i++)
        s += coordinates[i];
    return s;
}

int main(void)
{
    struct point p = {3, 4};
    putchar('0' + sum(&p.x, 1));
    putchar('0' + sum(&p.x, 2));
    return 0;
}
