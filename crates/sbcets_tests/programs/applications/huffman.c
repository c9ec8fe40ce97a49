#include <stdio.h>
#include <stdlib.h>
#include <string.h>

struct node {
    unsigned count;
    int letter;
    struct node *zero, *one;
};

static struct node *node(unsigned count, int letter, struct node *zero, struct node *one)
{
    struct node *n = malloc(sizeof *n);
    n->count = count;
    n->letter = letter;
    n->zero = zero;
    n->one = one;
    return n;
}

static struct node *least(struct node **nodes, int *count)
{
    int i, best = 0;
    struct node *n;
    for (i = 1; i < *count; i++)
        if (nodes[i]->count < nodes[best]->count
            || (nodes[i]->count == nodes[best]->count && nodes[i]->letter < nodes[best]->letter))
            best = i;
    n = nodes[best];
    nodes[best] = nodes[--*count];
    return n;
}

static char *codes[256];

static void name_codes(struct node *n, const char *prefix)
{
    char *code;
    if (!n->zero) {
        codes[n->letter] = malloc(strlen(prefix) + 1);
        strcpy(codes[n->letter], prefix);
        return;
    }
    code = malloc(strlen(prefix) + 2);
    strcpy(code, prefix);
    strcat(code, "0");
    name_codes(n->zero, code);
    code[strlen(code) - 1] = '1';
    name_codes(n->one, code);
    free(code);
}

static void drop(struct node *n)
{
    if (n) {
        drop(n->zero);
        drop(n->one);
        free(n);
    }
}

int main(void)
{
    static const char text[] = "she sells sea shells by the sea shore";
    struct node *nodes[256], *root, *n;
    unsigned counts[256] = {0};
    int i, used = 0, bits = 0;
    char *packed, *p;
    for (i = 0; text[i]; i++)
        counts[(unsigned char)text[i]]++;
    for (i = 0; i < 256; i++)
        if (counts[i])
            nodes[used++] = node(counts[i], i, NULL, NULL);
    while (used > 1) {
        struct node *a = least(nodes, &used), *b = least(nodes, &used);
        nodes[used++] = node(a->count + b->count, a->letter < b->letter ? a->letter : b->letter, a, b);
    }
    root = nodes[0];
    name_codes(root, "");
    for (i = 0; text[i]; i++)
        bits += strlen(codes[(int)text[i]]);
    packed = malloc(bits + 1);
    packed[0] = 0;
    for (i = 0, p = packed; text[i]; i++) {
        strcpy(p, codes[(int)text[i]]);
        p += strlen(p);
    }
    for (i = 0; i < 256; i++)
        if (codes[i]) {
            if (counts[i] > 2)
                printf("%c %s\n", i, codes[i]);
            free(codes[i]);
        }
    for (p = packed, n = root; *p; p++) {
        n = *p == '0' ? n->zero : n->one;
        if (!n->zero) {
            putchar(n->letter);
            n = root;
        }
    }
    printf("\n%d\n", bits);
    free(packed);
    drop(root);
    return bits;
}
