#include <stdio.h>

struct node {
    int value;
    struct node *next;
};

struct node *pushed(struct node *list, int value)
{
    struct node n;
    n.value = value;
    n.next = list;
    list = &n;
    putchar('0' + list->value);
    return list;
}

int main(void)
{
    struct node *list = 0;
    int sum = 0;
    list = pushed(list, 3);
    for (; list; list = list->next)
        sum += list->value;
    return sum;
}
