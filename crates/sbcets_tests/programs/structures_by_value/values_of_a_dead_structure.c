#include <stdio.h>
#include <stdlib.h>

/* structures by value: the copy of a list shares its items, and is used when they are freed */
struct list { int count; int *items; };

struct list made(int count)
{
    struct list l;
    int i;
    l.count = count;
    l.items = malloc(count * sizeof(int));
    for (i = 0; i < count; i++)
        l.items[i] = i + 1;
    return l;
}

int sum(struct list l)
{
    int s = 0;
    while (l.count > 0)
        s += l.items[--l.count];
    return s;
}

struct list dropped(struct list l)
{
    free(l.items);
    l.items = NULL;
    l.count = 0;
    return l;
}

int main(void)
{
    struct list l = made(3), copy = l;
    printf("%d", sum(copy));
    l = dropped(l);
    printf("%d", sum(l) + sum(copy));
    return 0;
}
