#include <stdio.h>

int *squared(int n)
{
    int result = n * n;
    int *at = &result;
    return at;
}

int main(void)
{
    int *nine = squared(3);
    putchar('.');
    return *nine;
}
