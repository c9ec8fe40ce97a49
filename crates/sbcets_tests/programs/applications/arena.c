#include <stdio.h>
#include <stdlib.h>
#include <string.h>

/* blocks that are cut out of larger ones, all freed at once */
struct chunk { struct chunk *before; size_t used, room; char *bytes; };
struct arena { struct chunk *last; int chunks, blocks; };

static void *cut(struct arena *a, size_t n)
{
    struct chunk *c = a->last;
    n = (n + 7) / 8 * 8;
    if (!c || c->used + n > c->room) {
        c = malloc(sizeof *c);
        c->room = n > 128 ? n : 128;
        c->bytes = malloc(c->room);
        c->used = 0;
        c->before = a->last;
        a->last = c;
        a->chunks++;
    }
    c->used += n;
    a->blocks++;
    return c->bytes + (c->used - n);
}

static void clear(struct arena *a)
{
    while (a->last) {
        struct chunk *c = a->last;
        a->last = c->before;
        free(c->bytes);
        free(c);
    }
}

struct tree { const char *name; struct tree *left, *right; };

static struct tree *add(struct arena *a, struct tree *t, const char *name)
{
    int order;
    if (!t) {
        char *copy = cut(a, strlen(name) + 1);
        t = cut(a, sizeof *t);
        t->name = strcpy(copy, name);
        t->left = t->right = NULL;
        return t;
    }
    order = strcmp(name, t->name);
    if (order < 0)
        t->left = add(a, t->left, name);
    else if (order > 0)
        t->right = add(a, t->right, name);
    return t;
}

static int depth(const struct tree *t)
{
    int l, r;
    if (!t)
        return 0;
    l = depth(t->left);
    r = depth(t->right);
    return 1 + (l > r ? l : r);
}

static void show(const struct tree *t)
{
    if (t) {
        show(t->left);
        printf("%s ", t->name);
        show(t->right);
    }
}

int main(void)
{
    static const char *const names[] = {
        "mole", "bear", "wolf", "ant", "cat", "stork", "ant", "zebra",
        "a rather long name for an animal of the sea", "yak", "bee"
    };
    struct arena a = {NULL, 0, 0};
    struct tree *t = NULL;
    unsigned i;
    for (i = 0; i < sizeof names / sizeof names[0]; i++)
        t = add(&a, t, names[i]);
    show(t);
    printf("\n%d %d %d\n", depth(t), a.chunks, a.blocks);
    memset(cut(&a, 500), 'x', 500);
    printf("%lu\n", a.last->room);
    clear(&a);
    return a.chunks;
}
