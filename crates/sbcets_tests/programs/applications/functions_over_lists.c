#include <stdio.h>
#include <stdlib.h>

typedef struct list { long head; struct list *tail; } list;
typedef long one(long);
typedef long two(long, long);

static list *put(long head, list *tail)
{
    list *l = malloc(sizeof(list));
    l->head = head;
    l->tail = tail;
    return l;
}

static list *range(long from, long to)
{
    return from < to ? put(from, range(from + 1, to)) : NULL;
}

static list *each(one *f, list *l)
{
    return l ? put(f(l->head), each(f, l->tail)) : NULL;
}

static list *only(one *is_kept, list *l)
{
    if (!l)
        return NULL;
    return is_kept(l->head) ? put(l->head, only(is_kept, l->tail)) : only(is_kept, l->tail);
}

static long fold(two *f, long start, const list *l)
{
    for (; l; l = l->tail)
        start = f(start, l->head);
    return start;
}

static list *both(two *f, list *a, list *b)
{
    return a && b ? put(f(a->head, b->head), both(f, a->tail, b->tail)) : NULL;
}

static long sum(long a, long b) { return a + b; }
static long product(long a, long b) { return a * b; }
static long larger(long a, long b) { return a > b ? a : b; }
static long square(long a) { return a * a; }
static long is_odd(long a) { return a & 1; }
static long negative(long a) { return -a; }

static two *choose(int n)
{
    static two *const all[3] = {sum, product, larger};
    return all[n % 3];
}

static void show(list *l)
{
    while (l) {
        list *tail = l->tail;
        printf("%ld%s", l->head, tail ? " " : "\n");
        free(l);
        l = tail;
    }
}

static void drop(list *l)
{
    if (l) {
        drop(l->tail);
        free(l);
    }
}

int main(void)
{
    list *l = range(1, 9), *s = each(square, l), *o = only(is_odd, s);
    one *f[] = {square, negative};
    int i;
    for (i = 0; i < 3; i++)
        printf("%ld ", fold(choose(i), i == 1, s));
    puts("");
    for (i = 0; i < 2; i++)
        show(each(f[i], o));
    show(both(choose(1), l, o));
    printf("%ld\n", fold(larger, -100, NULL));
    drop(l);
    drop(s);
    drop(o);
    return f[0] == square;
}
