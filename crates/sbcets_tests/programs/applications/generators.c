#include <stdio.h>
#include <stdlib.h>

/* streams of numbers: each has its state and a function that gives the next */
struct stream {
    int (*next)(struct stream *, long *);
    long a, b;
    struct stream *source;
};

static struct stream *stream(int (*next)(struct stream *, long *), long a, long b, struct stream *source)
{
    struct stream *s = malloc(sizeof *s);
    if (!s)
        abort();
    s->next = next;
    s->a = a;
    s->b = b;
    s->source = source;
    return s;
}

static int count(struct stream *s, long *to)
{
    *to = s->a;
    s->a += s->b;
    return 1;
}

static int squares(struct stream *s, long *to)
{
    long n;
    if (!s->source->next(s->source, &n))
        return 0;
    *to = n * n;
    return 1;
}

static int first(struct stream *s, long *to)
{
    return s->a-- > 0 && s->source->next(s->source, to);
}

static int without_multiples(struct stream *s, long *to)
{
    do
        if (!s->source->next(s->source, to))
            return 0;
    while (*to % s->a == 0);
    return 1;
}

/* the sieve of Eratosthenes: a new stream stands before the source for each prime */
static int primes(struct stream *s, long *to)
{
    if (!s->source->next(s->source, to))
        return 0;
    s->source = stream(without_multiples, *to, 0, s->source);
    return 1;
}

static int sums(struct stream *s, long *to)
{
    if (!s->source->next(s->source, to))
        return 0;
    *to = s->a += *to;
    return 1;
}

static int show(struct stream *s)
{
    int n = 0;
    long x;
    while (s->next(s, &x))
        printf("%ld ", x);
    puts("");
    while (s) {
        struct stream *source = s->source;
        free(s);
        s = source;
        n++;
    }
    return n;
}

int main(void)
{
    int n = show(stream(first, 15, 0, stream(primes, 0, 0, stream(count, 2, 1, NULL))));
    n += show(stream(sums, 0, 0, stream(first, 8, 0, stream(squares, 0, 0, stream(count, 1, 2, NULL)))));
    n += show(stream(squares, 0, 0, stream(first, 4, 0, stream(sums, 10, 0, stream(count, -5, 3, NULL)))));
    return n;
}
