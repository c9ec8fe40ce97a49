#include <stdio.h>

struct table {
    long before;
    long cells[4];
    long total;
};

void accumulate(struct table *t)
{
    int i;
    for (i = 0; i < 4; i++)
        t->cells[i] += t->cells[i - 1];
    t->total = t->cells[3];
}

int main(void)
{
    struct table t = {0, {1, 2, 3, 4}, 0};
    accumulate(&t);
    return t.total;
}
