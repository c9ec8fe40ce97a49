#include <stdio.h>
#include <stdlib.h>
#include <string.h>

/* a stock by commands: + name count cents, - name count, ? name, = all */
struct item {
    char name[16];
    unsigned count;
    long cents;
};

static struct item **items;
static int used, room;

static int read_word(char *to, int size)
{
    int c, n = 0;
    do
        c = getchar();
    while (c == ' ' || c == '\n');
    for (; c != EOF && c != ' ' && c != '\n'; c = getchar())
        if (n < size - 1)
            to[n++] = c;
    to[n] = '\0';
    return n;
}

static long read_number(void)
{
    char word[12], *end = word;
    long n = 0;
    read_word(word, sizeof word);
    while (*end)
        n = n * 10 + (*end++ - '0');
    return n;
}

static int place(const char *name, int *is_there)
{
    int i;
    for (i = 0; i < used; i++) {
        int order = strcmp(items[i]->name, name);
        *is_there = order == 0;
        if (order >= 0)
            return i;
    }
    *is_there = 0;
    return used;
}

static struct item *added(int at, const char *name)
{
    struct item *it = calloc(1, sizeof *it);
    int i;
    strcpy(it->name, name);
    if (used == room) {
        room = 2 * room + 1;
        items = realloc(items, room * sizeof *items);
    }
    for (i = used++; i > at; i--)
        items[i] = items[i - 1];
    items[at] = it;
    return it;
}

static void removed(int at)
{
    free(items[at]);
    used--;
    memmove(items + at, items + at + 1, (used - at) * sizeof *items);
}

int main(void)
{
    char what[2], name[16];
    int at, is_there, errors = 0, i;
    while (read_word(what, sizeof what)) {
        if (what[0] == '=') {
            long sum = 0;
            for (i = 0; i < used; i++)
                sum += items[i]->count * items[i]->cents;
            printf("%d kinds, %ld cents\n", used, sum);
            continue;
        }
        read_word(name, sizeof name);
        at = place(name, &is_there);
        if (what[0] == '+') {
            struct item *it = is_there ? items[at] : added(at, name);
            it->count += (unsigned)read_number();
            it->cents = read_number();
        } else if (what[0] == '-') {
            unsigned n = (unsigned)read_number();
            if (!is_there || items[at]->count < n)
                errors++;
            else if ((items[at]->count -= n) == 0)
                removed(at);
        } else if (is_there)
            printf("%s %u x %ld\n", items[at]->name, items[at]->count, items[at]->cents);
        else
            printf("no %s\n", name);
    }
    for (i = 0; i < used; i++) {
        printf("%s%c", items[i]->name, i + 1 < used ? ' ' : '\n');
        free(items[i]);
    }
    free(items);
    return errors;
}
