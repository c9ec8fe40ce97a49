#include <stdio.h>

void read_number(void *to)
{
    long value = 0;
    int c;
    while ((c = getchar()) >= '0' && c <= '9')
        value = value * 10 + c - '0';
    *(long *)to = value;
}

int main(void)
{
    long large;
    int small[1];
    read_number(&large);
    read_number(small);
    return small[0] + (int)large;
}
