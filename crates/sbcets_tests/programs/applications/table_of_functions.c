#include <stdio.h>
#include <stdlib.h>
#include <string.h>

/* a calculator of words: each is a function in a table, or one that is defined out of others */
struct machine {
    long stack[32];
    int depth;
};

struct word {
    const char *name;
    void (*run)(struct machine *);
};

static long pop(struct machine *m)
{
    if (m->depth == 0) {
        puts("empty");
        exit(3);
    }
    return m->stack[--m->depth];
}

static void push(struct machine *m, long n)
{
    m->stack[m->depth++] = n;
}

static void add(struct machine *m) { push(m, pop(m) + pop(m)); }
static void multiply(struct machine *m) { push(m, pop(m) * pop(m)); }
static void subtract(struct machine *m) { long b = pop(m); push(m, pop(m) - b); }
static void print(struct machine *m) { printf("%ld ", pop(m)); }
static void copy(struct machine *m) { long a = pop(m); push(m, a); push(m, a); }
static void drop(struct machine *m) { pop(m); }
static void turn(struct machine *m) { long b = pop(m), a = pop(m); push(m, b); push(m, a); }
static void line(struct machine *m) { m->depth += 0; putchar('\n'); }

static void square(struct machine *m)
{
    static void (*const parts[])(struct machine *) = {copy, multiply};
    unsigned i;
    for (i = 0; i < sizeof parts / sizeof parts[0]; i++)
        parts[i](m);
}

static const struct word words[] = {
    {"+", add}, {"*", multiply}, {"-", subtract}, {".", print}, {"dup", copy}, {"drop", drop}, {"swap", turn},
    {"cr", &line}, {"square", square}, {NULL, NULL}
};

static void (*find(const char *name))(struct machine *)
{
    const struct word *w = words;
    while (w->name && strcmp(w->name, name) != 0)
        w++;
    return w->run;
}

int main(void)
{
    struct machine m = {{0}, 0};
    char word[16];
    int c, n = 0, unknown = 0;
    do {
        c = getchar();
        if (c != ' ' && c != '\n' && c != EOF) {
            if (n < 15)
                word[n++] = c;
            continue;
        }
        word[n] = '\0';
        if (n > 0) {
            void (*run)(struct machine *) = find(word);
            if (run)
                run(&m);
            else if (word[0] >= '0' && word[0] <= '9') {
                long value = 0;
                char *d;
                for (d = word; *d; d++)
                    value = value * 10 + (*d - '0');
                push(&m, value);
            } else
                unknown++;
        }
        n = 0;
    } while (c != EOF);
    printf("%d\n", unknown);
    drop(&m);
    return 0;
}
