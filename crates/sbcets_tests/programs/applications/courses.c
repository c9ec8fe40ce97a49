#include <stdio.h>
#include <stdlib.h>
#include <string.h>

/* an order of courses in which each follows what it needs */
struct course {
    char name[8];
    int needs, is_done;
    struct link { struct course *to; struct link *next; } *leads_to;
    struct course *next;
};

static struct course *all;

static struct course *course(const char *name)
{
    struct course **c;
    for (c = &all; *c; c = &(*c)->next)
        if (!strcmp((*c)->name, name))
            return *c;
    *c = calloc(1, sizeof **c);
    strncpy((*c)->name, name, sizeof (*c)->name - 1);
    return *c;
}

static void need(const char *first, const char *then)
{
    struct course *a = course(first), *b = course(then);
    struct link *l = malloc(sizeof *l);
    l->to = b;
    l->next = a->leads_to;
    a->leads_to = l;
    b->needs++;
}

static struct course *ready(void)
{
    struct course *c, *best = NULL;
    for (c = all; c; c = c->next)
        if (!c->is_done && c->needs == 0 && (!best || strcmp(c->name, best->name) < 0))
            best = c;
    return best;
}

int main(void)
{
    static const char *const given[][2] = {
        {"algebra", "fields"}, {"sets", "algebra"}, {"sets", "logic"}, {"logic", "proofs"}, {"proofs", "types"},
        {"algebra", "types"}, {"fields", "galois"}, {"chicken", "egg"}, {"egg", "chicken"}, {"a longer name", "sets"}
    };
    struct course *c;
    struct link *l;
    unsigned i;
    int left = 0;
    for (i = 0; i < sizeof given / sizeof given[0]; i++)
        need(given[i][0], given[i][1]);
    while ((c = ready()) != NULL) {
        printf("%s ", c->name);
        c->is_done = 1;
        for (l = c->leads_to; l; l = l->next)
            l->to->needs--;
    }
    puts("");
    while (all) {
        c = all;
        all = c->next;
        if (!c->is_done) {
            printf("%s waits for %d\n", c->name, c->needs);
            left++;
        }
        while ((l = c->leads_to) != NULL) {
            c->leads_to = l->next;
            free(l);
        }
        free(c);
    }
    return left;
}
