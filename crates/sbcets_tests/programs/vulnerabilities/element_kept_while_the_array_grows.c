#include <stdlib.h>
#include <stdio.h>

struct array { int *items; int count, room; };

int *add(struct array *a, int item)
{
    if (a->count == a->room) {
        a->room = a->room * 2 + 1;
        a->items = realloc(a->items, a->room * sizeof(int));
    }
    a->items[a->count] = item;
    return &a->items[a->count++];
}

int main(void)
{
    struct array a = {NULL, 0, 0};
    int *first = add(&a, 1), i;
    for (i = 2; i < 10; i++)
        *first += *add(&a, i);
    return *first;
}
