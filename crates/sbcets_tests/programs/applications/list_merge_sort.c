#include <stdio.h>
#include <stdlib.h>

struct node {
    int key, place;
    struct node *next;
};

static struct node *merged(struct node *a, struct node *b)
{
    struct node *first, **last = &first;
    while (a && b) {
        struct node **least = b->key < a->key ? &b : &a;
        *last = *least;
        last = &(*last)->next;
        *least = (*least)->next;
    }
    *last = a ? a : b;
    return first;
}

static struct node *sorted(struct node *list)
{
    struct node *slow = list, *fast;
    if (!list || !list->next)
        return list;
    for (fast = list->next; fast && fast->next; fast = fast->next->next)
        slow = slow->next;
    fast = slow->next;
    slow->next = NULL;
    return merged(sorted(list), sorted(fast));
}

static struct node *without_repeats(struct node *list, int *count)
{
    struct node *n;
    *count = 0;
    for (n = list; n && n->next;)
        if (n->next->key == n->key) {
            struct node *gone = n->next;
            n->next = gone->next;
            free(gone);
            ++*count;
        } else
            n = n->next;
    return list;
}

int main(void)
{
    struct node *list = NULL, *n;
    int i, stable = 1, repeats, length = 0;
    unsigned seed = 7;
    for (i = 0; i < 150; i++) {
        seed = seed * 1103515245 + 12345;
        n = malloc(sizeof *n);
        n->key = seed >> 16 & 63;
        n->place = 150 - i;
        n->next = list;
        list = n;
    }
    list = sorted(list);
    for (n = list; n->next; n = n->next)
        if (n->key > n->next->key || (n->key == n->next->key && n->place > n->next->place))
            stable = 0;
    list = without_repeats(list, &repeats);
    while (list) {
        n = list->next;
        if (length++ % 8 == 0)
            printf("%d ", list->key);
        free(list);
        list = n;
    }
    printf("\n%d %d %d\n", stable, repeats, length);
    return length;
}
