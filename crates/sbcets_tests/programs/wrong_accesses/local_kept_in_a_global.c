#include <stdio.h>

static int *current;

void choose(int n)
{
    int chosen[2];
    chosen[0] = n;
    chosen[1] = n + 1;
    current = &chosen[1];
    putchar('0' + *current);
}

int main(void)
{
    choose(4);
    *current = 9;
    choose(5);
    return 0;
}
