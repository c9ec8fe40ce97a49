#include <stdio.h>
#include <stdlib.h>
#include <string.h>

/* an assembler of two passes and its machine, whose operations are functions in a table */
struct machine { long r[4]; int pc, is_done; long steps; };

struct code { void (*run)(struct machine *, const struct code *); int a, b, target; };

struct label { char name[8]; int at; struct label *next; };

static struct code *program;
static int length;
static struct label *labels;

static void op_set(struct machine *m, const struct code *c) { m->r[c->a] = c->b; }
static void op_add(struct machine *m, const struct code *c) { m->r[c->a] += m->r[c->b]; }
static void op_sub(struct machine *m, const struct code *c) { m->r[c->a] -= m->r[c->b]; }
static void op_mul(struct machine *m, const struct code *c) { m->r[c->a] *= m->r[c->b]; }
static void op_jnz(struct machine *m, const struct code *c) { if (m->r[c->a]) m->pc = c->target; }
static void op_out(struct machine *m, const struct code *c) { printf("%ld\n", m->r[c->a]); }
static void op_end(struct machine *m, const struct code *c) { m->is_done = c->a + 1; }

static const struct { char name[4]; void (*run)(struct machine *, const struct code *); } operations[] = {
    {"set", op_set}, {"add", op_add}, {"sub", op_sub}, {"mul", op_mul},
    {"jnz", op_jnz}, {"out", op_out}, {"end", op_end}
};

static int place_of(const char *name, size_t n)
{
    struct label *l;
    for (l = labels; l; l = l->next)
        if (strlen(l->name) == n && memcmp(l->name, name, n) == 0)
            return l->at;
    return -1;
}

static int is_end(char c)
{
    return c == '\0' || c == ' ' || c == '\n';
}

static const char *word(const char *s, size_t *n)
{
    while (*s == ' ' || *s == '\n')
        s++;
    for (*n = 0; !is_end(s[*n]); ++*n)
        ;
    return s;
}

static int number(const char *s)
{
    int n = 0, sign = *s == '-' ? -1 : 1;
    for (s += *s == '-' || *s == 'r'; !is_end(*s); s++)
        n = n * 10 + *s - '0';
    return sign * n;
}

static void pass(const char *text, int is_second)
{
    size_t n;
    const char *w;
    int at = 0;
    for (w = word(text, &n); n > 0; w = word(w + n, &n)) {
        struct code c = {NULL, 0, 0, -1};
        unsigned i;
        if (w[n - 1] == ':') {
            if (!is_second) {
                struct label *l = calloc(1, sizeof *l);
                memcpy(l->name, w, n - 1);
                l->at = at;
                l->next = labels;
                labels = l;
            }
            continue;
        }
        for (i = 0; i < sizeof operations / sizeof operations[0]; i++)
            if (memcmp(operations[i].name, w, n) == 0)
                c.run = operations[i].run;
        w = word(w + n, &n);
        c.a = number(w);
        w = word(w + n, &n);
        c.target = place_of(w, n);
        if (c.run != op_jnz)
            c.b = number(w);
        if (is_second)
            program[at] = c;
        at++;
    }
    length = at;
}

int main(void)
{
    static const char text[] =
        "set r0 1\nset r1 12\nset r2 1\n"
        "again: mul r0 r1\nsub r1 r2\njnz r1 again\nout r0 0\n"
        "set r1 -3\nup: add r1 r2\nout r1 0\njnz r1 up\nend r0 0\n";
    struct machine m = {{0}, 0, 0, 0};
    pass(text, 0);
    program = malloc(length * sizeof *program);
    pass(text, 1);
    while (!m.is_done) {
        const struct code *c = &program[m.pc++];
        m.steps++;
        c->run(&m, c);
    }
    printf("%d %ld\n", length, m.steps);
    free(program);
    while (labels) {
        struct label *l = labels;
        labels = l->next;
        free(l);
    }
    return (int)m.steps;
}
