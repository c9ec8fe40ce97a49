#include <stdio.h>
#include <stdlib.h>

struct node {
    int key, height;
    struct node *kids[2];
};

static int live;

static int height(const struct node *n)
{
    return n ? n->height : 0;
}

static void measure(struct node *n)
{
    int l = height(n->kids[0]), r = height(n->kids[1]);
    n->height = 1 + (l > r ? l : r);
}

static struct node *turned(struct node *n, int to)
{
    struct node *up = n->kids[!to];
    n->kids[!to] = up->kids[to];
    up->kids[to] = n;
    measure(n);
    measure(up);
    return up;
}

static struct node *balanced(struct node *n)
{
    int lean = height(n->kids[1]) - height(n->kids[0]), heavy;
    measure(n);
    if (lean >= -1 && lean <= 1)
        return n;
    heavy = lean > 0;
    if (height(n->kids[heavy]->kids[!heavy]) > height(n->kids[heavy]->kids[heavy]))
        n->kids[heavy] = turned(n->kids[heavy], heavy);
    return turned(n, !heavy);
}

static struct node *inserted(struct node *n, int key)
{
    int side;
    if (!n) {
        n = calloc(1, sizeof *n);
        n->key = key;
        n->height = 1;
        live++;
        return n;
    }
    if (key == n->key)
        return n;
    side = key > n->key;
    n->kids[side] = inserted(n->kids[side], key);
    return balanced(n);
}

static struct node *without_least(struct node *n, struct node **least)
{
    if (!n->kids[0]) {
        *least = n;
        return n->kids[1];
    }
    n->kids[0] = without_least(n->kids[0], least);
    return balanced(n);
}

static struct node *erased(struct node *n, int key)
{
    if (!n)
        return NULL;
    if (key != n->key) {
        int side = key > n->key;
        n->kids[side] = erased(n->kids[side], key);
    } else {
        struct node *gone = n, *right = n->kids[1];
        if (!right)
            n = n->kids[0];
        else {
            struct node *least;
            right = without_least(right, &least);
            least->kids[0] = gone->kids[0];
            least->kids[1] = right;
            n = least;
        }
        free(gone);
        live--;
        if (!n)
            return NULL;
    }
    return balanced(n);
}

static void show(const struct node *n, int depth)
{
    if (n && depth > 0) {
        printf("%d(", n->key);
        show(n->kids[0], depth - 1);
        putchar(' ');
        show(n->kids[1], depth - 1);
        putchar(')');
    }
}

static int is_ordered(const struct node *n, int low, int high)
{
    return !n || (n->key > low && n->key < high
                  && is_ordered(n->kids[0], low, n->key) && is_ordered(n->kids[1], n->key, high));
}

int main(void)
{
    struct node *root = NULL;
    int i;
    for (i = 0; i < 60; i++)
        root = inserted(root, i);
    printf("%d %d\n", live, root->height);
    for (i = 0; i < 60; i += 3)
        root = erased(root, i);
    for (i = 1000; i > 960; i--)
        root = inserted(root, i * 7 % 500);
    printf("%d %d %d\n", live, root->height, is_ordered(root, -1, 1000));
    show(root, 3);
    puts("");
    while (root)
        root = erased(root, root->key);
    return live;
}
