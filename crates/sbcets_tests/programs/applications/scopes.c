#include <stdio.h>
#include <stdlib.h>
#include <string.h>

/* names in nested blocks, in one table whose chains are shortened when a block ends */
struct symbol {
    const char *name;
    int depth, value;
    struct symbol *hidden, *same_block;
};

struct block {
    struct symbol *symbols;
    struct block *outer;
};

enum { SLOTS = 7 };

static struct symbol *slots[SLOTS];
static struct block *current;
static int depth, made;

static struct symbol **slot(const char *name)
{
    unsigned h = 0;
    while (*name)
        h = h * 31 + (unsigned)*name++;
    return &slots[h % SLOTS];
}

static void begin(void)
{
    struct block *b = malloc(sizeof *b);
    b->symbols = NULL;
    b->outer = current;
    current = b;
    depth++;
}

static void declare(const char *name, int value)
{
    struct symbol **at = slot(name), *s = malloc(sizeof *s);
    s->name = name;
    s->depth = depth;
    s->value = value;
    s->hidden = *at;
    s->same_block = current->symbols;
    *at = current->symbols = s;
    made++;
}

static struct symbol *find(const char *name)
{
    struct symbol *s;
    for (s = *slot(name); s; s = s->hidden)
        if (strcmp(s->name, name) == 0)
            return s;
    return NULL;
}

static void end(void)
{
    struct block *gone = current;
    while (gone->symbols) {
        struct symbol *s = gone->symbols, **at = slot(s->name);
        gone->symbols = s->same_block;
        *at = s->hidden;
        free(s);
        made--;
    }
    current = gone->outer;
    free(gone);
    depth--;
}

static void tell(const char *name)
{
    struct symbol *s = find(name);
    if (s)
        printf("%s=%d@%d ", name, s->value, s->depth);
    else
        printf("%s? ", name);
}

int main(void)
{
    static const char *const program[] = {
        "{", "+a", "+b", "?a", "{", "+a", "?a", "?b", "{", "+c", "+b", "?b", "?c", "}", "?b", "?c", "}",
        "?a", "}", "?a"
    };
    unsigned i;
    for (i = 0; i < sizeof program / sizeof *program; i++) {
        const char *p = program[i];
        switch (*p) {
        case '{': begin(); break;
        case '}': end(); break;
        case '+': declare(p + 1, (int)i); break;
        default: tell(p + 1);
        }
    }
    printf("\n%d %d\n", made, depth);
    return made;
}
