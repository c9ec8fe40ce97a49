#include <stdio.h>

void number(long n)
{
    char digits[24];
    int count = 0;
    if (n < 0) {
        putchar('-');
        n = -n;
    }
    do {
        digits[count++] = '0' + n % 10;
        n /= 10;
    } while (n > 0);
    while (count > 0)
        putchar(digits[--count]);
}
void field(long n, int behind)
{
    number(n);
    putchar(behind);
}
#define ROOM 5

struct queue {
    int items[ROOM];
    int first, count, lost;
};

void push(struct queue *q, int item)
{
    if (q->count == ROOM) {
        q->lost++;
        return;
    }
    q->items[(q->first + q->count++) % ROOM] = item;
}

int pop(struct queue *q, int *item)
{
    if (q->count == 0)
        return 0;
    *item = q->items[q->first];
    q->first = (q->first + 1) % ROOM;
    q->count--;
    return 1;
}

int main(void)
{
    struct queue q = {{0}, 3, 0, 0};
    int i, item, sum = 0;
    for (i = 1; i <= 7; i++)
        push(&q, i * 10);
    field(q.count, ' ');
    field(q.lost, '\n');
    for (i = 0; i < 30; i++) {
        if (pop(&q, &item)) {
            sum += item;
            field(item, ' ');
        }
        if (i % 3 != 2)
            push(&q, i);
    }
    putchar('\n');
    while (pop(&q, &item))
        field(item, ' ');
    field(sum, '\n');
    return q.first * 10 + q.lost;
}
