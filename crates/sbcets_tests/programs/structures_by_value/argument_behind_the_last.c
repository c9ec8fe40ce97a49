#include <stdio.h>
#include <stdlib.h>

/* structures by value: one is passed that stands behind the last */
struct pair { int a, b; };

int sum(struct pair p)
{
    return p.a + p.b;
}

int main(void)
{
    struct pair *pairs = calloc(2, sizeof *pairs);
    int i;
    pairs[0].a = 1;
    pairs[1].b = 2;
    printf("%d", sum(pairs[0]) + sum(pairs[1]));
    for (i = 0; i <= 2; i++)
        pairs[0].a += sum(pairs[i]);
    printf("%d\n", pairs[0].a);
    return 0;
}
