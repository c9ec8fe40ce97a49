#include <stdio.h>

typedef int operation(int, int);

static int sum(int a, int b) { return a + b; }
static int negative(int a) { return -a; }

static int apply(operation *f, int a, int b)
{
    return f(a, b);
}

int main(void)
{
    printf("%d ", apply(sum, 1, 2));
    printf("%d\n", apply((operation *)negative, 1, 2));
    return 0;
}
