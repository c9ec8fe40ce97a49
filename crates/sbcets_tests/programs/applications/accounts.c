#include <stdio.h>
#include <stdlib.h>
#include <string.h>

struct entry { long amount; const char *why; struct entry *before; };

struct account {
    char owner[10];
    long balance;
    struct entry *last;
    struct account *next;
};

static struct account *accounts;
static int refused;

static struct account *find(const char *owner)
{
    struct account *a = accounts;
    while (a && strcmp(a->owner, owner))
        a = a->next;
    return a;
}

static struct account *open_account(const char *owner)
{
    struct account *a = calloc(1, sizeof *a);
    strncpy(a->owner, owner, sizeof a->owner - 1);
    a->next = accounts;
    return accounts = a;
}

static int book(struct account *a, long amount, const char *why)
{
    struct entry *e;
    if (!a || a->balance + amount < 0) {
        refused++;
        return 0;
    }
    e = malloc(sizeof *e);
    e->amount = amount;
    e->why = why;
    e->before = a->last;
    a->last = e;
    a->balance += amount;
    return 1;
}

static void move(const char *from, const char *to, long amount)
{
    struct account *b = find(to);
    if (b && book(find(from), -amount, to))
        book(b, amount, from);
}

static void close_account(const char *owner)
{
    struct account **a = &accounts;
    while (*a && strcmp((*a)->owner, owner))
        a = &(*a)->next;
    if (*a) {
        struct account *gone = *a;
        *a = gone->next;
        while (gone->last) {
            struct entry *e = gone->last;
            gone->last = e->before;
            free(e);
        }
        free(gone);
    }
}

static void statement(const struct account *a)
{
    const struct entry *e;
    printf("%s %ld:", a->owner, a->balance);
    for (e = a->last; e; e = e->before)
        printf(" %ld %s%s", e->amount, e->why, e->before ? "," : "");
    puts("");
}

int main(void)
{
    static const char *const names[] = {"ann", "bartholomew", "cy"};
    struct account *a;
    int i;
    for (i = 0; i < 3; i++)
        book(open_account(names[i]), 100 * (i + 1), "open");
    move("ann", "cy", 30);
    move("cy", "bartholom", 330);
    move("cy", "nobody", 1);
    move("cy", "ann", 1);
    book(find("ann"), -70, "rent");
    book(find("zed"), 5, "gift");
    for (a = accounts; a; a = a->next)
        statement(a);
    close_account("cy");
    close_account("cy");
    for (i = 0, a = accounts; a; a = a->next)
        i++;
    printf("%d left, %d refused\n", i, refused);
    while (accounts)
        close_account(accounts->owner);
    return refused;
}
