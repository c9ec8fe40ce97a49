#include <stdio.h>
#include <stdlib.h>
#include <string.h>

/* a machine by a table of texts, on a tape of cells that are made as they are reached */
struct cell { char symbol; struct cell *left, *right; };

struct rule { char state, read, write, move, next; };

static const struct rule adder[] = {
    {'a', '1', '1', 'r', 'a'}, {'a', '+', '1', 'r', 'b'}, {'b', '1', '1', 'r', 'b'}, {'b', '_', '_', 'l', 'c'},
    {'c', '1', '_', 'l', 'h'}, {0, 0, 0, 0, 0}
};

static const struct rule beaver[] = {
    {'a', '_', '1', 'r', 'b'}, {'a', '1', '1', 'l', 'c'}, {'b', '_', '1', 'l', 'a'}, {'b', '1', '1', 'r', 'b'},
    {'c', '_', '1', 'l', 'b'}, {'c', '1', '1', 'r', 'h'}, {0, 0, 0, 0, 0}
};

static struct cell *cell(char symbol, struct cell *left, struct cell *right)
{
    struct cell *c = malloc(sizeof *c);
    c->symbol = symbol;
    c->left = left;
    c->right = right;
    return c;
}

static struct cell *moved(struct cell *c, char move)
{
    if (move == 'l') {
        if (!c->left)
            c->left = cell('_', NULL, c);
        return c->left;
    }
    if (!c->right)
        c->right = cell('_', c, NULL);
    return c->right;
}

static int run(const struct rule *rules, const char *tape)
{
    struct cell *first = cell(*tape ? *tape++ : '_', NULL, NULL), *c = first;
    char state = 'a';
    int steps = 0, marks = 0;
    for (; *tape; tape++)
        c = c->right = cell(*tape, c, NULL);
    for (c = first; state != 'h'; steps++) {
        const struct rule *r = rules;
        while (r->state && (r->state != state || r->read != c->symbol))
            r++;
        if (!r->state)
            return -1;
        c->symbol = r->write;
        c = moved(c, r->move);
        state = r->next;
    }
    while (c->left)
        c = c->left;
    while (c) {
        struct cell *right = c->right;
        putchar(c->symbol);
        marks += c->symbol == '1';
        free(c);
        c = right;
    }
    printf(" %d\n", steps);
    return marks;
}

int main(void)
{
    int a = run(adder, "111+11"), b = run(beaver, "");
    printf("%d %d\n", a, b);
    return run(beaver, "x") + 1;
}
