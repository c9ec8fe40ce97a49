#include <stdio.h>
#include <stdlib.h>
#include <string.h>

/* commands that are kept with what undoes them */
struct document { char letters[32]; };

struct command {
    void (*act)(struct document *, struct command *);
    void (*undo)(struct document *, struct command *);
    int at;
    char letter;
    struct command *next;
};

struct history { struct command *done, *undone; int made; };

static void insert(struct document *d, struct command *c)
{
    memmove(d->letters + c->at + 1, d->letters + c->at, strlen(d->letters + c->at) + 1);
    d->letters[c->at] = c->letter;
}

static void erase(struct document *d, struct command *c)
{
    c->letter = d->letters[c->at];
    memmove(&d->letters[c->at], &d->letters[c->at + 1], strlen(&d->letters[c->at]));
}

static void put_back(struct document *d, struct command *c)
{
    char letter = d->letters[c->at];
    d->letters[c->at] = c->letter;
    c->letter = letter;
}

static void forget(struct history *h)
{
    while (h->undone) {
        struct command *c = h->undone;
        h->undone = c->next;
        free(c);
    }
}

static void act(struct history *h, struct document *d, int kind, int at, char letter)
{
    struct command *c = malloc(sizeof *c);
    c->act = kind == '+' ? insert : kind == '-' ? erase : put_back;
    c->undo = kind == '+' ? erase : kind == '-' ? insert : put_back;
    c->at = at;
    c->letter = letter;
    c->next = h->done;
    h->done = c;
    h->made++;
    forget(h);
    c->act(d, c);
}

static int step(struct history *h, struct document *d, int is_undo)
{
    struct command **from = is_undo ? &h->done : &h->undone, **to = is_undo ? &h->undone : &h->done, *c = *from;
    if (!c)
        return 0;
    *from = c->next;
    c->next = *to;
    *to = c;
    (is_undo ? c->undo : c->act)(d, c);
    return 1;
}

int main(void)
{
    struct document d = {"chain"};
    struct history h = {NULL, NULL, 0};
    int i, n = 0;
    act(&h, &d, '+', 5, 's');
    act(&h, &d, '-', 0, 0);
    act(&h, &d, '=', 0, 'H');
    puts(d.letters);
    n += step(&h, &d, 1);
    n += step(&h, &d, 1);
    puts(d.letters);
    n += step(&h, &d, 0);
    act(&h, &d, '+', 0, 't');
    n += step(&h, &d, 0);
    puts(d.letters);
    for (i = 0; i < 9; i++)
        n += step(&h, &d, 1);
    puts(d.letters);
    for (i = 0; i < 9; i++)
        n += step(&h, &d, 0);
    puts(d.letters);
    while (step(&h, &d, 1))
        ;
    forget(&h);
    printf("%d %d\n", h.made, n);
    return n;
}
