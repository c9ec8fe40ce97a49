#include <stdio.h>
#include <stdlib.h>

/* objects with tables of functions */
struct shape;

struct kind {
    const char *name;
    int (*area)(const struct shape *);
    struct shape *(*scaled)(const struct shape *, int);
    void (*drop)(struct shape *);
};

struct shape {
    const struct kind *kind;
    int a, b;
    struct shape **parts;
};

static int live;

static struct shape *shape(const struct kind *kind, int a, int b)
{
    struct shape *s = malloc(sizeof *s);
    s->kind = kind;
    s->a = a;
    s->b = b;
    s->parts = NULL;
    live++;
    return s;
}

static int box_area(const struct shape *s) { return s->a * s->b; }
static int triangle_area(const struct shape *s) { return s->a * s->b / 2; }
static void drop(struct shape *s) { live--; free(s); }

static struct shape *scaled(const struct shape *s, int by)
{
    return shape(s->kind, s->a * by, s->b * by);
}

static int group_area(const struct shape *s)
{
    int i, sum = 0;
    for (i = 0; i < s->a; i++)
        sum += s->parts[i]->kind->area(s->parts[i]);
    return sum;
}

static struct shape *group_scaled(const struct shape *s, int by)
{
    struct shape *g = shape(s->kind, s->a, s->b);
    int i;
    g->parts = malloc(s->a * sizeof *g->parts);
    for (i = 0; i < s->a; i++)
        g->parts[i] = (*s->parts[i]->kind->scaled)(s->parts[i], by);
    return g;
}

static void group_drop(struct shape *s)
{
    int i;
    for (i = 0; i < s->a; i++)
        s->parts[i]->kind->drop(s->parts[i]);
    free(s->parts);
    drop(s);
}

static const struct kind box = {"box", box_area, scaled, drop};
static const struct kind triangle = {"triangle", triangle_area, scaled, drop};
static const struct kind group = {"group", group_area, group_scaled, group_drop};

static void show(const struct shape *s, int depth)
{
    int i;
    for (i = 0; i < depth; i++)
        putchar('-');
    printf("%s %d\n", s->kind->name, s->kind->area(s));
    for (i = 0; s->parts && i < s->a; i++)
        show(s->parts[i], depth + 1);
}

int main(void)
{
    struct shape *inner = shape(&group, 2, 0), *outer = shape(&group, 2, 0), *large;
    int area;
    inner->parts = calloc(2, sizeof *inner->parts);
    inner->parts[0] = shape(&box, 3, 4);
    inner->parts[1] = shape(&triangle, 5, 6);
    outer->parts = calloc(2, sizeof *outer->parts);
    outer->parts[0] = inner;
    outer->parts[1] = shape(&box, 1, 1);
    large = outer->kind->scaled(outer, 3);
    outer->kind->drop(outer);
    show(large, 0);
    area = large->kind->area(large);
    printf("%d live\n", live);
    large->kind->drop(large);
    return live * 256 + area % 256;
}
