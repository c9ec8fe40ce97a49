#include <stdio.h>
#include <stdlib.h>
#include <string.h>

struct array {
    size_t size, count, room;
    char *items;
    int moves;
};

void *slot(struct array *a, size_t i)
{
    return a->items + i * a->size;
}

void add(struct array *a, const void *item)
{
    if (a->count == a->room) {
        a->room = a->room ? a->room + a->room / 2 + 1 : 2;
        a->items = realloc(a->items, a->room * a->size);
        a->moves++;
    }
    memcpy(slot(a, a->count++), item, a->size);
}

void put_in(struct array *a, size_t at, const void *item)
{
    add(a, item);
    memmove(slot(a, at + 1), slot(a, at), (a->count - 1 - at) * a->size);
    memcpy(slot(a, at), item, a->size);
}

void take_out(struct array *a, size_t at)
{
    a->count--;
    memmove(slot(a, at), slot(a, at + 1), (a->count - at) * a->size);
}

struct pair { long key; const char *name; };

int main(void)
{
    struct array numbers = {sizeof(int), 0, 0, NULL, 0}, pairs = {sizeof(struct pair), 0, 0, NULL, 0};
    struct pair p = {1, "one"}, *q;
    int i, n;
    for (i = 0; i < 30; i++) {
        n = i * i;
        if (i % 4)
            add(&numbers, &n);
        else
            put_in(&numbers, numbers.count / 2, &n);
    }
    for (i = 0; i < 10; i++)
        take_out(&numbers, i);
    for (i = 0; i < (int)numbers.count; i++)
        printf("%d ", *(int *)slot(&numbers, i));
    printf("\n%lu %lu %d\n", numbers.count, numbers.room, numbers.moves);
    add(&pairs, &p);
    p.key = 3;
    p.name = "three";
    add(&pairs, &p);
    p.key = 2;
    p.name = "two";
    put_in(&pairs, 1, &p);
    for (q = slot(&pairs, 0); q < (struct pair *)slot(&pairs, pairs.count); q++)
        printf("%ld=%s ", q->key, q->name);
    puts("");
    free(numbers.items);
    free(pairs.items);
    return (int)pairs.room;
}
