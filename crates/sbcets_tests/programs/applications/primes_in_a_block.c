#include <stdio.h>
#include <stdlib.h>
#include <string.h>

/* a sieve of a size that is found as it runs, and what is known of its gaps */
struct gaps { int *counts; int largest, room; };

static unsigned char *sieve(unsigned n)
{
    unsigned char *is_out = calloc(n + 1, 1);
    unsigned i, j;
    if (!is_out)
        return NULL;
    memset(is_out, 1, 2);
    for (i = 2; i * i <= n; i++)
        if (!is_out[i])
            for (j = i * i; j <= n; j += i)
                is_out[j] = 1;
    return is_out;
}

static void count(struct gaps *g, int gap)
{
    if (gap >= g->room) {
        int room = gap + 1;
        int *counts = realloc(g->counts, room * sizeof(int));
        memset(counts + g->room, 0, (room - g->room) * sizeof(int));
        g->counts = counts;
        g->room = room;
    }
    g->counts[gap]++;
    if (gap > g->largest)
        g->largest = gap;
}

int main(void)
{
    struct gaps g = {NULL, 0, 0};
    unsigned n, before = 2, i, found = 0;
    unsigned char *is_out = NULL;
    for (n = 10; found < 303; n *= 2) {
        free(is_out);
        is_out = sieve(n);
        for (i = 0, found = 0; i <= n; i++)
            found += !is_out[i];
        printf("%u:%u ", n, found);
    }
    puts("");
    for (i = 3; i <= n / 2; i++)
        if (!is_out[i]) {
            count(&g, (int)(i - before));
            before = i;
        }
    for (i = 1; (int)i < g.room; i++)
        if (g.counts[i])
            printf("%u*%d ", i, g.counts[i]);
    printf("\n%d %u\n", g.largest, before);
    free(g.counts);
    free(is_out);
    return g.largest;
}
