#include <stdio.h>
#include <stdlib.h>

/* each node holds both neighbours in one number */
struct node { int value; unsigned long both; };

int main(void)
{
    struct node *nodes = calloc(3, sizeof *nodes), *before = NULL, *n;
    int i;
    for (i = 0; i < 3; i++) {
        nodes[i].value = i + 2;
        nodes[i].both = (i > 0 ? (unsigned long)&nodes[i - 1] : 0) ^ (i < 2 ? (unsigned long)&nodes[i + 1] : 0);
    }
    for (n = nodes; n != NULL;) {
        struct node *next;
        printf("%d", n->value);
        next = (struct node *)(n->both ^ (unsigned long)before);
        before = n;
        n = next;
    }
    return 0;
}
