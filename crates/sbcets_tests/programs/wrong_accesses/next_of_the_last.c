#include <stdio.h>

struct node { char value; struct node *next; };

int main(void)
{
    struct node third = {'3', 0}, second = {'2', &third}, first = {'1', &second}, *n = &first;
    int i;
    for (i = 0; i < 3; i++) {
        if (n->next->value != 0)
            putchar(n->value);
        n = n->next;
    }
    return 0;
}
