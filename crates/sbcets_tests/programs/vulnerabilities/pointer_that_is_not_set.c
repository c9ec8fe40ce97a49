#include <stdio.h>
#include <stdlib.h>

struct list { int count; int *items; };

struct list *make(int count)
{
    struct list *l = calloc(1, sizeof *l);
    l->count = count;
    if (count > 2)
        l->items = calloc(count, sizeof(int));
    return l;
}

int main(void)
{
    struct list *l = make(3);
    l->items[0] = 1;
    printf("%d\n", l->items[0]);
    l = make(2);
    l->items[0] = 1;
    return 0;
}
