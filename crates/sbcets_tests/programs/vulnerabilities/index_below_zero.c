#include <stdio.h>

struct table { int size; int rates[4]; };

static struct table t = {4, {10, 20, 30, 40}};

int rate(int i)
{
    if (i >= t.size)
        return 0;
    return *(t.rates + i);
}

int main(void)
{
    printf("%d\n", rate(1) + rate(4));
    printf("%d\n", rate(-1));
    return 0;
}
