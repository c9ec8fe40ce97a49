#include <stdio.h>
#include <stdlib.h>
#include <string.h>

/* from one word to another by one letter at a time */
struct node {
    char word[5];
    int is_seen;
    struct node *from, *next_in_queue, *next;
    struct edge { struct node *to; struct edge *next; } *edges;
};

static int differences(const char *a, const char *b)
{
    int n = 0;
    while (*a)
        n += *a++ != *b++;
    return n;
}

static void join(struct node *a, struct node *b)
{
    struct edge *e = malloc(sizeof *e);
    e->to = b;
    e->next = a->edges;
    a->edges = e;
}

static struct node *graph(const char *const *words)
{
    struct node *all = NULL, *n, *m;
    for (; *words; words++) {
        n = calloc(1, sizeof *n);
        strcpy(n->word, *words);
        for (m = all; m; m = m->next)
            if (differences(m->word, n->word) == 1) {
                join(m, n);
                join(n, m);
            }
        n->next = all;
        all = n;
    }
    return all;
}

static struct node *find(struct node *n, const char *word)
{
    while (n && strcmp(n->word, word))
        n = n->next;
    return n;
}

static int path(struct node *all, const char *from, const char *to)
{
    struct node *first = find(all, from), *last = first, *n;
    int steps = 0;
    for (n = all; n; n = n->next) {
        n->is_seen = 0;
        n->from = n->next_in_queue = NULL;
    }
    first->is_seen = 1;
    for (; first; first = first->next_in_queue) {
        struct edge *e;
        if (!strcmp(first->word, to))
            break;
        for (e = first->edges; e; e = e->next)
            if (!e->to->is_seen) {
                e->to->is_seen = 1;
                e->to->from = first;
                last = last->next_in_queue = e->to;
            }
    }
    for (; first; first = first->from, steps++)
        printf("%s%s", first->word, first->from ? "<" : "\n");
    return steps - 1;
}

int main(void)
{
    static const char *const words[] = {
        "cold", "cord", "card", "ward", "warm", "word", "worm", "form", "corn", "core", "care", "dare", "bare",
        "barn", "zoos", NULL
    };
    struct node *all = graph(words);
    int a = path(all, "cold", "warm"), b = path(all, "barn", "form"), c = path(all, "zoos", "cold"), n = 0;
    printf("%d %d %d\n", a, b, c);
    while (all) {
        struct node *gone = all;
        all = gone->next;
        while (gone->edges) {
            struct edge *e = gone->edges;
            gone->edges = e->next;
            free(e);
            n++;
        }
        free(gone);
    }
    return n;
}
