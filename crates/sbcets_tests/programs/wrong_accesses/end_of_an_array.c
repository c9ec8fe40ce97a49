#include <stdio.h>

int *largest(int *from, int *end)
{
    int *best = end;
    for (; from != end; from++)
        if (best == end || *from > *best)
            best = from;
    return best;
}

int main(void)
{
    int numbers[] = {4, 9, 2}, *at;
    at = largest(numbers, numbers + 3);
    putchar('m'), putchar('a'), putchar('x'), putchar(' ');
    putchar('0' + *at);
    at = largest(numbers + 3, numbers + 3);
    return *at;
}
