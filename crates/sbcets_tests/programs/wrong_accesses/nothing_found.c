#include <stdio.h>

struct entry { int key; char letter; struct entry *next; };

static struct entry b = {2, 'y', 0}, a = {1, 'x', &b};

struct entry *find(struct entry *e, int key)
{
    while (e && e->key != key)
        e = e->next;
    return e;
}

int main(void)
{
    putchar(find(&a, 2)->letter);
    putchar(find(&a, 3)->letter);
    return 0;
}
