#include <stdio.h>
#include <stdlib.h>

struct event { const char *name; struct event *next; };

static struct event *queue;

struct event *plan(const char *name)
{
    struct event *e = malloc(sizeof *e), **last = &queue;
    e->name = name;
    e->next = NULL;
    while (*last)
        last = &(*last)->next;
    *last = e;
    return e;
}

void run(void)
{
    while (queue) {
        struct event *e = queue;
        queue = e->next;
        printf("%s", e->name);
        free(e);
    }
}

int main(void)
{
    struct event *second;
    plan("first");
    second = plan("second");
    plan("third");
    free(second);
    run();
    return 0;
}
