#include <stdio.h>
#include <stdlib.h>
#include <string.h>

struct entry {
    char *key;
    int value;
    struct entry *next;
};

struct table {
    struct entry **slots;
    unsigned size, count;
};

static unsigned hash(const char *s)
{
    unsigned h = 2166136261u;
    while (*s)
        h = (h ^ (unsigned char)*s++) * 16777619u;
    return h;
}

static char *copy_of(const char *s)
{
    char *c = malloc(strlen(s) + 1);
    return strcpy(c, s);
}

static void grow(struct table *t)
{
    unsigned size = t->size ? 2 * t->size : 4, i;
    struct entry **slots = calloc(size, sizeof *slots);
    for (i = 0; i < t->size; i++) {
        struct entry *e = t->slots[i];
        while (e) {
            struct entry *next = e->next;
            struct entry **slot = &slots[hash(e->key) % size];
            e->next = *slot;
            *slot = e;
            e = next;
        }
    }
    free(t->slots);
    t->slots = slots;
    t->size = size;
}

int *at(struct table *t, const char *key)
{
    struct entry *e;
    if (t->size)
        for (e = t->slots[hash(key) % t->size]; e; e = e->next)
            if (strcmp(e->key, key) == 0)
                return &e->value;
    if (t->count >= t->size)
        grow(t);
    e = malloc(sizeof *e);
    e->key = copy_of(key);
    e->value = 0;
    e->next = t->slots[hash(key) % t->size];
    t->slots[hash(key) % t->size] = e;
    t->count++;
    return &e->value;
}

int removed(struct table *t, const char *key)
{
    struct entry **e = &t->slots[hash(key) % t->size];
    for (; *e; e = &(*e)->next)
        if (!strcmp((*e)->key, key)) {
            struct entry *gone = *e;
            *e = gone->next;
            free(gone->key);
            free(gone);
            t->count--;
            return 1;
        }
    return 0;
}

int main(void)
{
    struct table t = {NULL, 0, 0};
    char key[8] = "k";
    int i, sum = 0, chain = 0;
    unsigned s;
    for (i = 0; i < 60; i++) {
        key[1] = 'a' + i % 23;
        key[2] = 'a' + i % 3;
        key[3] = 0;
        *at(&t, key) += i;
    }
    printf("%u of %u\n", t.count, t.size);
    for (i = 0; i < 23; i += 2) {
        key[1] = 'a' + i;
        key[2] = 'a' + i % 3;
        sum += removed(&t, key);
    }
    printf("%d removed, %u left\n", sum, t.count);
    printf("%d %d\n", *at(&t, "kba"), *at(&t, "kdd"));
    for (s = 0, sum = 0; s < t.size; s++) {
        struct entry *e = t.slots[s];
        int length = 0;
        while (e) {
            struct entry *next = e->next;
            sum += e->value;
            free(e->key);
            free(e);
            e = next;
            length++;
        }
        if (length > chain)
            chain = length;
    }
    free(t.slots);
    printf("%d %d\n", sum, chain);
    return 0;
}
