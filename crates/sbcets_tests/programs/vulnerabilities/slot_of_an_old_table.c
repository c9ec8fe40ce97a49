#include <stdio.h>
#include <stdlib.h>
#include <string.h>

struct table { long *slots; unsigned size; };

void grow(struct table *t)
{
    long *slots = calloc(2 * t->size, sizeof *slots);
    memcpy(slots, t->slots, t->size * sizeof *slots);
    free(t->slots);
    t->slots = slots;
    t->size *= 2;
}

long *slot(struct table *t, unsigned key)
{
    while (key >= t->size)
        grow(t);
    return t->slots + key;
}

int main(void)
{
    struct table t = {NULL, 2};
    long *one, *nine;
    t.slots = calloc(2, sizeof(long));
    one = slot(&t, 1);
    *one = 1;
    printf("%ld\n", *one);
    nine = slot(&t, 9);
    *nine = *one + 8;
    printf("%ld\n", *nine);
    return 0;
}
