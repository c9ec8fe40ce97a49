#include <stdio.h>
#include <stdlib.h>

struct tree { int value; struct tree *left, *right; };

struct tree *tree(int value, struct tree *left, struct tree *right)
{
    struct tree *t = malloc(sizeof *t);
    t->value = value;
    t->left = left;
    t->right = right;
    return t;
}

int sum(const struct tree *t)
{
    return t ? t->value + sum(t->left) + sum(t->right) : 0;
}

void drop(struct tree *t)
{
    if (!t)
        return;
    drop(t->left);
    drop(t->right);
    free(t);
}

int main(void)
{
    struct tree *leaf = tree(2, NULL, NULL), *t = tree(2, leaf, leaf);
    printf("%d\n", sum(t));
    drop(t);
    return 0;
}
