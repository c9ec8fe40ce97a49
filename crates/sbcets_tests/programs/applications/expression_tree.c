#include <stdio.h>
#include <stdlib.h>

struct tree {
    char operator;
    long number;
    struct tree *left, *right;
};

static int next, count;

static void advance(void)
{
    do
        next = getchar();
    while (next == ' ');
}

struct tree *leaf(long number)
{
    struct tree *t = malloc(sizeof *t);
    if (t == NULL)
        exit(2);
    count++;
    t->operator = 0;
    t->number = number;
    t->left = t->right = NULL;
    return t;
}

struct tree *join(char operator, struct tree *left, struct tree *right)
{
    struct tree *t = leaf(0);
    t->operator = operator;
    t->left = left;
    t->right = right;
    return t;
}

struct tree *sum(void);

struct tree *primary(void)
{
    if (next == '(') {
        struct tree *t;
        advance();
        t = sum();
        if (next == ')')
            advance();
        return t;
    }
    if (next == '-') {
        advance();
        return join('~', primary(), NULL);
    }
    {
        long n = 0;
        while (next >= '0' && next <= '9') {
            n = n * 10 + (next - '0');
            next = getchar();
        }
        if (next == ' ')
            advance();
        return leaf(n);
    }
}

struct tree *product(void)
{
    struct tree *t = primary();
    while (next == '*' || next == '/') {
        char operator = next;
        advance();
        t = join(operator, t, primary());
    }
    return t;
}

struct tree *sum(void)
{
    struct tree *t = product();
    while (next == '+' || next == '-') {
        char operator = next;
        advance();
        t = join(operator, t, product());
    }
    return t;
}

long value(const struct tree *t)
{
    switch (t->operator) {
    case '+': return value(t->left) + value(t->right);
    case '-': return value(t->left) - value(t->right);
    case '*': return value(t->left) * value(t->right);
    case '/': return value(t->left) / value(t->right);
    case '~': return -value(t->left);
    default: return t->number;
    }
}

void show(const struct tree *t)
{
    if (t->operator == 0) {
        printf("%ld", t->number);
        return;
    }
    printf("%c(", t->operator);
    show(t->left);
    if (t->right) {
        printf(" ");
        show(t->right);
    }
    printf(")");
}

void release(struct tree *t)
{
    if (t) {
        release(t->left);
        release(t->right);
        free(t);
        count--;
    }
}

int main(void)
{
    for (advance(); next != EOF; advance()) {
        struct tree *t = sum();
        show(t);
        printf(" = %ld\n", value(t));
        release(t);
    }
    return count;
}
