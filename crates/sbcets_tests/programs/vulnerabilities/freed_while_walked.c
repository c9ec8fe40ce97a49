#include <stdio.h>
#include <stdlib.h>

struct node { int value; struct node *next; };

int main(void)
{
    struct node *list = NULL, *n;
    int i;
    for (i = 1; i <= 3; i++) {
        n = malloc(sizeof *n);
        n->value = i;
        n->next = list;
        list = n;
    }
    for (n = list; n != NULL;) {
        printf("%d", n->value);
        free(n);
        n = n->next;
    }
    return 0;
}
