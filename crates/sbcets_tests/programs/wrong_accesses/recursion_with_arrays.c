#include <stdio.h>

static int total(const int *before, int n)
{
    int here[1000];
    here[n % 1000] = *before + 1;
    if (n == 100)
        return here[100];
    return total(&here[n % 1000], n + 1);
}

int main(void)
{
    int first = 0;
    putchar('.');
    return total(&first, 0);
}
