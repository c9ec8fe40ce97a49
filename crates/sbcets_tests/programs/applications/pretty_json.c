#include <stdio.h>
#include <stdlib.h>
#include <string.h>

enum kind { NUL, NUMBER, TEXT, ARRAY, OBJECT };

struct json {
    enum kind kind;
    long number;
    char *text, *key;
    struct json *first, *next;
};

static const char *at;

static struct json *fresh(enum kind kind)
{
    struct json *j = malloc(sizeof(struct json));
    memset(j, 0, sizeof *j);
    j->kind = kind;
    return j;
}

static void blanks(void)
{
    while (*at == ' ' || *at == '\n')
        at++;
}

static char *text(void)
{
    const char *end = strchr(++at, '"');
    size_t n = end - at;
    char *s = malloc(n + 1);
    memcpy(s, at, n);
    s[n] = 0;
    at = end + 1;
    return s;
}

static struct json *parse(void);

static void parts(struct json *into, char end, int is_object)
{
    struct json **last = &into->first;
    at++;
    for (blanks(); *at != end; blanks()) {
        char *key = NULL;
        if (is_object) {
            key = text();
            blanks();
            at++;
        }
        *last = parse();
        (*last)->key = key;
        last = &(*last)->next;
        blanks();
        if (*at == ',')
            at++;
    }
    at++;
}

static struct json *parse(void)
{
    struct json *j;
    blanks();
    switch (*at) {
    case '[':
        j = fresh(ARRAY);
        parts(j, ']', 0);
        return j;
    case '{':
        j = fresh(OBJECT);
        parts(j, '}', 1);
        return j;
    case '"':
        j = fresh(TEXT);
        j->text = text();
        return j;
    case 'n':
        at += strlen("null");
        return fresh(NUL);
    default:
        j = fresh(NUMBER);
        for (; *at >= '0' && *at <= '9'; at++)
            j->number = j->number * 10 + *at - '0';
        return j;
    }
}

static void show(const struct json *j, int depth)
{
    const struct json *p;
    int i;
    if (j->key)
        printf("%s: ", j->key);
    switch (j->kind) {
    case NUL: printf("null"); break;
    case NUMBER: printf("%ld", j->number); break;
    case TEXT: printf("'%s'", j->text); break;
    default:
        putchar(j->kind == ARRAY ? '[' : '{');
        for (p = j->first; p; p = p->next) {
            puts("");
            for (i = 0; i <= depth; i++)
                putchar(' ');
            show(p, depth + 1);
        }
        putchar(j->kind == ARRAY ? ']' : '}');
    }
}

static int drop(struct json *j)
{
    int n = 1;
    while (j->first) {
        struct json *p = j->first;
        j->first = p->next;
        n += drop(p);
    }
    free(j->key);
    free(j->text);
    free(j);
    return n;
}

int main(void)
{
    struct json *j;
    at = "{\"name\": \"x\", \"sizes\": [1, 20,300 ,[]],\n \"in\": {\"none\": null, \"e\": {}}, \"last\":[{\"a\":7}]}";
    j = parse();
    show(j, 0);
    puts("");
    return drop(j);
}
