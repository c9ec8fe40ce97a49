#include <stdio.h>

static int depth(int n)
{
    if (n < 0)
        return 0;
    return 1 + depth(n + 1);
}

int main(void)
{
    putchar('.');
    return depth(1);
}
