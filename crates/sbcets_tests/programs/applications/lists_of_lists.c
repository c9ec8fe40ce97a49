#include <stdio.h>
#include <stdlib.h>
#include <string.h>

/* a small Lisp: numbers, names and pairs; all pairs stand in one list, and are freed at the end */
enum kind { NUMBER, NAME, PAIR };

struct value {
    enum kind kind;
    union {
        long number;
        char name[8];
        struct { struct value *first, *rest; } pair;
    } as;
    struct value *made_before;
};

static struct value *made;
static const char *text;

static struct value *value(enum kind kind)
{
    struct value *v = calloc(1, sizeof *v);
    v->kind = kind;
    v->made_before = made;
    made = v;
    return v;
}

static struct value *number(long n)
{
    struct value *v = value(NUMBER);
    v->as.number = n;
    return v;
}

static struct value *pair(struct value *first, struct value *rest)
{
    struct value *v = value(PAIR);
    v->as.pair.first = first;
    v->as.pair.rest = rest;
    return v;
}

static struct value *read(void);

static struct value *read_rest(void)
{
    struct value *first;
    while (*text == ' ')
        text++;
    if (*text == ')') {
        text++;
        return NULL;
    }
    first = read();
    return pair(first, read_rest());
}

static struct value *read(void)
{
    struct value *v;
    int n = 0;
    while (*text == ' ')
        text++;
    if (*text == '(') {
        text++;
        return read_rest();
    }
    if (*text >= '0' && *text <= '9') {
        long sum = 0;
        while (*text >= '0' && *text <= '9')
            sum = sum * 10 + *text++ - '0';
        return number(sum);
    }
    v = value(NAME);
    while (*text && !strchr(" ()", *text))
        v->as.name[n++] = *text++;
    return v;
}

static int is_named(const struct value *v, const char *name)
{
    return v && v->kind == NAME && strcmp(v->as.name, name) == 0;
}

static struct value *found(const struct value *name, struct value *names)
{
    for (; names; names = names->as.pair.rest->as.pair.rest)
        if (strcmp(names->as.pair.first->as.name, name->as.name) == 0)
            return names->as.pair.rest->as.pair.first;
    return number(0);
}

static struct value *result(struct value *v, struct value *names)
{
    struct value *head, *a, *b;
    if (!v || v->kind == NUMBER)
        return v;
    if (v->kind == NAME)
        return found(v, names);
    head = v->as.pair.first;
    a = v->as.pair.rest->as.pair.first;
    if (is_named(head, "quote"))
        return a;
    b = v->as.pair.rest->as.pair.rest ? v->as.pair.rest->as.pair.rest->as.pair.first : NULL;
    if (is_named(head, "if")) {
        struct value *c = v->as.pair.rest->as.pair.rest->as.pair.rest->as.pair.first;
        struct value *test = result(a, names);
        return result(test && (test->kind != NUMBER || test->as.number) ? b : c, names);
    }
    if (is_named(head, "let")) {
        struct value *in = v->as.pair.rest->as.pair.rest->as.pair.rest->as.pair.first;
        return result(in, pair(a, pair(result(b, names), names)));
    }
    a = result(a, names);
    if (is_named(head, "first"))
        return a->as.pair.first;
    if (is_named(head, "rest"))
        return a->as.pair.rest;
    b = result(b, names);
    if (is_named(head, "pair"))
        return pair(a, b);
    if (is_named(head, "+"))
        return number(a->as.number + b->as.number);
    if (is_named(head, "*"))
        return number(a->as.number * b->as.number);
    return number(-1);
}

static void show(const struct value *v)
{
    if (!v)
        printf("()");
    else if (v->kind == NUMBER)
        printf("%ld", v->as.number);
    else if (v->kind == NAME)
        printf("%s", v->as.name);
    else {
        const char *before = "(";
        for (; v && v->kind == PAIR; v = v->as.pair.rest) {
            printf("%s", before);
            show(v->as.pair.first);
            before = " ";
        }
        if (v) {
            printf(" . ");
            show(v);
        }
        printf(")");
    }
}

int main(void)
{
    static const char *const lines[] = {
        "(+ 1 (* 2 3))", "(quote (a (b 12) c))", "(rest (quote (1 2 3)))", "(pair 1 (pair 2 (quote ())))",
        "(let x 5 (let y (+ x 1) (* x y)))", "(if (first (quote (0 1))) 10 (pair 20 30))"
    };
    unsigned i;
    int count = 0;
    for (i = 0; i < sizeof lines / sizeof *lines; i++) {
        text = lines[i];
        show(result(read(), NULL));
        puts("");
    }
    while (made) {
        struct value *before = made->made_before;
        free(made);
        made = before;
        count++;
    }
    return count;
}
