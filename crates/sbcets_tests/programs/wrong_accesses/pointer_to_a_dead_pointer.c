#include <stdio.h>

static int seven = 7;

int **twice(void)
{
    int *p = &seven, **pp = &p;
    putchar('0' + **pp);
    return pp;
}

int main(void)
{
    int **pp = twice();
    int n = seven;
    n += **pp;
    return n;
}
