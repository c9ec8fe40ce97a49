#include <stdio.h>
#include <stdlib.h>
#include <string.h>

struct node { char *label; struct node *next; };

struct node *node(char *label, struct node *next)
{
    struct node *n = malloc(sizeof *n);
    n->label = label;
    n->next = next;
    return n;
}

void drop(struct node *n)
{
    while (n) {
        struct node *next = n->next;
        free(n->label);
        free(n);
        n = next;
    }
}

int main(void)
{
    char *shared = malloc(8);
    struct node *list = node(shared, node(shared, NULL));
    strcpy(shared, "left");
    printf("%s right\n", list->label);
    drop(list);
    return 0;
}
