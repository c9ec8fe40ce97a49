#include <stdio.h>
#include <stdlib.h>
#include <string.h>

/* values of several kinds in one union, by value */
enum kind { NONE, WHOLE, BYTES, LIST };

struct value {
    enum kind kind;
    union {
        long whole;
        char bytes[12];
        struct { struct value *items; int count; } list;
    } as;
};

static struct value none(void)
{
    struct value v;
    memset(&v, 0, sizeof v);
    return v;
}

static struct value whole(long n)
{
    struct value v = none();
    v.kind = WHOLE;
    v.as.whole = n;
    return v;
}

static struct value bytes(const char *s)
{
    struct value v = none();
    v.kind = BYTES;
    strncpy(v.as.bytes, s, sizeof v.as.bytes - 1);
    return v;
}

static struct value list(int count, const struct value *items)
{
    struct value v = none();
    int i;
    v.kind = LIST;
    v.as.list.items = malloc(count * sizeof(struct value));
    v.as.list.count = count;
    for (i = 0; i < count; i++)
        v.as.list.items[i] = items[i];
    return v;
}

static struct value joined(struct value a, struct value b)
{
    struct value pair[2];
    if (a.kind == WHOLE && b.kind == WHOLE)
        return whole(a.as.whole + b.as.whole);
    if (a.kind == BYTES && b.kind == BYTES && strlen(a.as.bytes) + strlen(b.as.bytes) < sizeof a.as.bytes) {
        strcat(a.as.bytes, b.as.bytes);
        return a;
    }
    pair[0] = a;
    pair[1] = b;
    return list(2, pair);
}

static void show(struct value v)
{
    int i;
    switch (v.kind) {
    case NONE: printf("none"); break;
    case WHOLE: printf("%ld", v.as.whole); break;
    case BYTES: printf("\"%s\"", v.as.bytes); break;
    default:
        for (i = 0; i < v.as.list.count; i++) {
            putchar(i ? ' ' : '[');
            show(v.as.list.items[i]);
        }
        putchar(']');
    }
}

static int drop(struct value v)
{
    int n = 0, i;
    if (v.kind != LIST)
        return 0;
    for (i = 0; i < v.as.list.count; i++)
        n += drop(v.as.list.items[i]);
    free(v.as.list.items);
    return n + 1;
}

int main(void)
{
    struct value items[6], all, copy;
    int i, lists = 0;
    items[0] = whole(5000000000);
    items[1] = joined(whole(-1), items[0]);
    items[2] = bytes("a text that is too long");
    items[3] = joined(bytes("ab"), joined(bytes("cd"), bytes("ef")));
    items[4] = joined(items[2], items[3]);
    items[5] = none();
    all = list(6, items);
    show(all);
    puts("");
    copy = all.as.list.items[4];
    all.as.list.items[4] = joined(whole(1), bytes("x"));
    for (i = 0; i < 2; i++) {
        show(i ? copy : all);
        puts("");
    }
    lists = drop(all) + drop(copy);
    return lists * 16 + (int)sizeof(struct value);
}
