#include <stdio.h>

void number(long n)
{
    char digits[24];
    int count = 0;
    if (n < 0) {
        putchar('-');
        n = -n;
    }
    do {
        digits[count++] = '0' + n % 10;
        n /= 10;
    } while (n > 0);
    while (count > 0)
        putchar(digits[--count]);
}
void field(long n, int behind)
{
    number(n);
    putchar(behind);
}
struct node {
    int key, times;
    struct node *left, *right;
};

static struct node nodes[40];
static int used;

struct node **place_of(struct node **root, int key)
{
    while (*root && (*root)->key != key)
        root = key < (*root)->key ? &(*root)->left : &(*root)->right;
    return root;
}

void add(struct node **root, int key)
{
    struct node **at = place_of(root, key);
    if (!*at) {
        *at = &nodes[used++];
        (*at)->key = key;
    }
    (*at)->times++;
}

void take_away(struct node **root, int key)
{
    struct node **at = place_of(root, key), *gone = *at;
    if (!gone)
        return;
    if (!gone->left)
        *at = gone->right;
    else if (!gone->right)
        *at = gone->left;
    else {
        struct node **least = &gone->right, *up;
        while ((*least)->left)
            least = &(*least)->left;
        up = *least;
        *least = up->right;
        up->left = gone->left;
        up->right = gone->right;
        *at = up;
    }
}

int height(const struct node *n)
{
    int l, r;
    if (!n)
        return 0;
    l = height(n->left);
    r = height(n->right);
    return (l > r ? l : r) + 1;
}

void walk(const struct node *n, long *sum)
{
    if (!n)
        return;
    walk(n->left, sum);
    *sum = *sum * 3 % 1000003 + n->key * n->times;
    walk(n->right, sum);
}

void show(const struct node *n)
{
    if (n) {
        show(n->left);
        field(n->key, ' ');
        show(n->right);
    }
}

int main(void)
{
    struct node *root = 0;
    long sum = 0;
    int i;
    for (i = 0; i < 60; i++)
        add(&root, i * 17 % 31);
    walk(root, &sum);
    field(sum, ' ');
    field(height(root), '\n');
    for (i = 0; i < 31; i += 2)
        take_away(&root, i);
    take_away(&root, 100);
    show(root);
    putchar('\n');
    sum = 0;
    walk(root, &sum);
    field(sum, ' ');
    field(height(root), '\n');
    return used;
}
