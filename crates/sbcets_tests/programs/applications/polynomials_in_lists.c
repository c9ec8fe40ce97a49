#include <stdio.h>
#include <stdlib.h>

struct term { long factor; int power; struct term *next; };

static int live;

static struct term *term(long factor, int power, struct term *next)
{
    struct term *t = malloc(sizeof *t);
    t->factor = factor;
    t->power = power;
    t->next = next;
    live++;
    return t;
}

static void drop(struct term *t)
{
    while (t) {
        struct term *next = t->next;
        free(t);
        live--;
        t = next;
    }
}

/* adds a term to a list whose powers go down */
static void add(struct term **p, long factor, int power)
{
    while (*p && (*p)->power > power)
        p = &(*p)->next;
    if (*p && (*p)->power == power) {
        (*p)->factor += factor;
        if ((*p)->factor == 0) {
            struct term *gone = *p;
            *p = gone->next;
            gone->next = NULL;
            drop(gone);
        }
    } else if (factor != 0)
        *p = term(factor, power, *p);
}

static struct term *product(const struct term *a, const struct term *b)
{
    struct term *p = NULL;
    const struct term *t;
    for (; a; a = a->next)
        for (t = b; t; t = t->next)
            add(&p, a->factor * t->factor, a->power + t->power);
    return p;
}

static struct term *remainder(const struct term *a, const struct term *b)
{
    struct term *r = NULL;
    const struct term *t;
    for (t = a; t; t = t->next)
        add(&r, t->factor, t->power);
    while (r && r->power >= b->power && r->factor % b->factor == 0) {
        long factor = r->factor / b->factor;
        int power = r->power - b->power;
        for (t = b; t; t = t->next)
            add(&r, -factor * t->factor, t->power + power);
    }
    return r;
}

static void show(const struct term *t)
{
    if (!t)
        printf("0");
    for (; t; t = t->next) {
        printf("%ldx%d%s", t->factor, t->power, t->next ? " + " : "");
    }
    puts("");
}

int main(void)
{
    struct term *a = NULL, *b = NULL, *c, *d;
    int i;
    for (i = 0; i < 4; i++)
        add(&a, i % 2 ? -1 : 1, i);
    add(&b, 1, 1);
    add(&b, 1, 0);
    show(a);
    show(b);
    c = product(a, b);
    show(c);
    drop(a);
    a = product(c, c);
    show(a);
    d = remainder(a, b);
    show(d);
    drop(d);
    add(&a, 5, 0);
    add(&a, 3, 100);
    d = remainder(a, b);
    show(d);
    drop(d);
    drop(a);
    drop(b);
    drop(c);
    return live;
}
