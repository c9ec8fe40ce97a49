#include <stdio.h>

#define ROOM 4

struct queue { int first, last; char items[ROOM]; };

void push(struct queue *q, char c)
{
    q->items[q->last++] = c;
}

int pop(struct queue *q)
{
    return q->items[q->first++ % ROOM];
}

int main(void)
{
    struct queue q = {0, 0, {0}};
    int i;
    for (i = 0; i < 6; i++) {
        push(&q, '0' + i);
        putchar(pop(&q));
    }
    return 0;
}
