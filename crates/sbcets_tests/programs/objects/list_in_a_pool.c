#include <stdio.h>

void number(long n)
{
    char digits[24];
    int count = 0;
    if (n < 0) {
        putchar('-');
        n = -n;
    }
    do {
        digits[count++] = '0' + n % 10;
        n /= 10;
    } while (n > 0);
    while (count > 0)
        putchar(digits[--count]);
}
void field(long n, int behind)
{
    number(n);
    putchar(behind);
}
#define POOL 10

struct cell {
    long key;
    struct cell *next;
};

static struct cell pool[POOL];
static struct cell *unused;

void start(void)
{
    int i;
    for (i = 0; i < POOL; i++)
        pool[i].next = i + 1 < POOL ? &pool[i + 1] : NULL;
    unused = pool;
}

int insert(struct cell **list, long key)
{
    struct cell *c = unused;
    if (c == NULL)
        return 0;
    unused = c->next;
    while (*list && (*list)->key < key)
        list = &(*list)->next;
    c->key = key;
    c->next = *list;
    *list = c;
    return 1;
}

int erase(struct cell **list, long key)
{
    for (; *list; list = &(*list)->next)
        if ((*list)->key == key) {
            struct cell *c = *list;
            *list = c->next;
            c->next = unused;
            unused = c;
            return 1;
        }
    return 0;
}

void show(struct cell *list)
{
    for (; list; list = list->next)
        field(list->key, list->next ? ',' : '\n');
}

int main(void)
{
    struct cell *list = NULL, *reversed = NULL;
    long k;
    int refused = 0;
    start();
    for (k = 1; k <= 12; k++)
        refused += !insert(&list, k * 7 % 13);
    show(list);
    refused += !erase(&list, 8);
    refused += !erase(&list, 8);
    refused += !erase(&list, 100);
    refused += !insert(&list, 55);
    insert(&list, -4);
    show(list);
    while (list) {
        struct cell *c = list;
        list = c->next;
        c->next = reversed;
        reversed = c;
    }
    show(reversed);
    return refused;
}
