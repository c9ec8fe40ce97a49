#include <stdio.h>

int *larger(int a, int b)
{
    int *p = &a;
    if (b > *p)
        p = &b;
    return p;
}

int main(void)
{
    int x = 4, y = 6, *m;
    m = larger(x, y);
    return m == &x ? 1 : *m;
}
