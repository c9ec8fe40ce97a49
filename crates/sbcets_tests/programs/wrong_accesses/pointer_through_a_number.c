#include <stdio.h>

int main(void)
{
    int four = 4, *p = &four;
    long n = (long)p;
    putchar('0' + *p);
    p = (int *)n;
    return *p;
}
