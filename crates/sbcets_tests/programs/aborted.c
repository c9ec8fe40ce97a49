#include <stdio.h>
#include <stdlib.h>


int checked(int n)
{
    if (n > 3)
        abort();
    putchar('0' + n);
    return n + 1;
}

int main(void)
{
    int n = 0;
    while (1)
        n = checked(n);
}
