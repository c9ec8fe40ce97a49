#include <stdio.h>
#include <stdlib.h>

/* a simulation: a heap of events, each with what is to be done and for whom */
struct customer { int number, waits, served; };

struct event {
    long at;
    int order;
    void (*happen)(struct customer *);
    struct customer *who;
};

static struct event *heap;
static int count, room, orders, queue, is_busy;
static struct customer *waiting[16];
static long now;

static int is_before(const struct event *a, const struct event *b)
{
    return a->at < b->at || (a->at == b->at && a->order < b->order);
}

static void plan(long at, void (*happen)(struct customer *), struct customer *who)
{
    int i;
    struct event e;
    e.at = at;
    e.order = orders++;
    e.happen = happen;
    e.who = who;
    if (count == room) {
        room = room ? 2 * room : 1;
        heap = realloc(heap, room * sizeof *heap);
    }
    for (i = count++; i > 0 && is_before(&e, &heap[(i - 1) / 2]); i = (i - 1) / 2)
        heap[i] = heap[(i - 1) / 2];
    heap[i] = e;
}

static struct event soonest(void)
{
    struct event first = heap[0], last = heap[--count];
    int i = 0, child;
    while ((child = 2 * i + 1) < count) {
        if (child + 1 < count && is_before(&heap[child + 1], &heap[child]))
            child++;
        if (!is_before(&heap[child], &last))
            break;
        heap[i] = heap[child];
        i = child;
    }
    heap[i] = last;
    return first;
}

static void leave(struct customer *c);

static void serve(struct customer *c)
{
    is_busy = 1;
    c->served = 1;
    plan(now + 7 + c->number * 5 % 4, leave, c);
}

static void arrive(struct customer *c)
{
    if (is_busy) {
        c->waits = (int)now;
        waiting[queue++] = c;
    } else
        serve(c);
}

static void leave(struct customer *c)
{
    printf("%d@%ld ", c->number, now);
    free(c);
    is_busy = 0;
    if (queue > 0) {
        struct customer *next = waiting[0];
        int i;
        for (i = 1; i < queue; i++)
            waiting[i - 1] = waiting[i];
        queue--;
        next->waits = (int)now - next->waits;
        printf("(%d)", next->waits);
        serve(next);
    }
}

int main(void)
{
    int i, done = 0;
    for (i = 0; i < 9; i++) {
        struct customer *c = calloc(1, sizeof *c);
        c->number = i;
        plan(i * i * 37 % 50, arrive, c);
    }
    while (count > 0) {
        struct event e = soonest();
        now = e.at;
        e.happen(e.who);
        done++;
    }
    free(heap);
    printf("\n%ld\n", now);
    return done;
}
