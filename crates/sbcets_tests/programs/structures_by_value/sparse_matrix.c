#include <stdio.h>
#include <stdlib.h>

struct cell { int row, column; long value; struct cell *right, *down; };

struct matrix {
    int rows, columns;
    struct cell **first_of_row, **first_of_column;
    int count;
};

static struct matrix make(int rows, int columns)
{
    struct matrix m;
    m.rows = rows;
    m.columns = columns;
    m.count = 0;
    m.first_of_row = calloc(rows, sizeof *m.first_of_row);
    m.first_of_column = calloc(columns, sizeof *m.first_of_column);
    return m;
}

static void add(struct matrix *m, int row, int column, long value)
{
    struct cell **r = &m->first_of_row[row], **d = &m->first_of_column[column], *c;
    while (*r && (*r)->column < column)
        r = &(*r)->right;
    if (*r && (*r)->column == column) {
        (*r)->value += value;
        return;
    }
    while (*d && (*d)->row < row)
        d = &(*d)->down;
    c = malloc(sizeof *c);
    c->row = row;
    c->column = column;
    c->value = value;
    c->right = *r;
    c->down = *d;
    *r = *d = c;
    m->count++;
}

static struct matrix product(struct matrix a, struct matrix b)
{
    struct matrix p = make(a.rows, b.columns);
    int i;
    for (i = 0; i < a.rows; i++) {
        const struct cell *x, *y;
        for (x = a.first_of_row[i]; x; x = x->right)
            for (y = b.first_of_row[x->column]; y; y = y->right)
                add(&p, i, y->column, x->value * y->value);
    }
    return p;
}

static void drop(struct matrix m)
{
    int i;
    for (i = 0; i < m.rows; i++)
        while (m.first_of_row[i]) {
            struct cell *c = m.first_of_row[i];
            m.first_of_row[i] = c->right;
            free(c);
        }
    free(m.first_of_row);
    free(m.first_of_column);
}

int main(void)
{
    struct matrix a = make(50, 40), b = make(40, 60), p;
    const struct cell *c;
    long sum = 0;
    int i;
    for (i = 0; i < 60; i++) {
        add(&a, i * 7 % 50, i * 11 % 40, i + 1);
        add(&b, i * 3 % 40, i * 13 % 60, 2 - i % 5);
    }
    add(&a, 0, 0, 100);
    p = product(a, b);
    printf("%d %d %d\n", a.count, b.count, p.count);
    for (c = p.first_of_row[0]; c; c = c->right)
        printf("%d:%ld ", c->column, c->value);
    puts("");
    for (i = 0; i < p.columns; i++)
        for (c = p.first_of_column[i]; c; c = c->down)
            sum = sum * 3 % 1000003 + c->row * c->value;
    printf("%ld\n", sum);
    drop(a);
    drop(b);
    drop(p);
    return 0;
}
