#include <stdio.h>

void number(long n)
{
    char digits[21], *p = &digits[20];
    int negative = n < 0;
    *p = 0;
    do {
        int d = n % 10;
        *--p = '0' + (d < 0 ? -d : d);
        n /= 10;
    } while (n != 0);
    if (negative)
        *--p = '-';
    while (*p)
        putchar(*p++);
}
void field(long n, int behind)
{
    number(n);
    putchar(behind);
}
#define N 7
#define FAR 1000000

struct edge {
    int to, length;
};

struct corner {
    struct edge edges[4];
    int count, distance, is_done;
    struct corner *before;
    char name;
};

static struct corner corners[N];

void join(int a, int b, int length)
{
    struct corner *c = &corners[a];
    struct edge *e = &c->edges[c->count++];
    e->to = b;
    e->length = length;
}

struct corner *nearest(void)
{
    struct corner *best = 0, *c;
    for (c = corners; c != corners + N; c++)
        if (!c->is_done && c->distance < FAR && (!best || c->distance < best->distance))
            best = c;
    return best;
}

void search(struct corner *from)
{
    struct corner *c;
    for (c = corners; c < corners + N; c++)
        c->distance = FAR;
    from->distance = 0;
    while ((c = nearest()) != 0) {
        int i;
        c->is_done = 1;
        for (i = 0; i < c->count; i++) {
            struct corner *next = corners + c->edges[i].to;
            int through = c->distance + c->edges[i].length;
            if (through < next->distance) {
                next->distance = through;
                next->before = c;
            }
        }
    }
}

void way(struct corner *c)
{
    if (c->before)
        way(c->before);
    putchar(c->name);
}

int main(void)
{
    static const int given[][3] = {
        {0, 1, 7}, {0, 2, 3}, {2, 1, 1}, {1, 3, 2}, {2, 3, 8}, {3, 4, 5}, {1, 4, 6}, {4, 5, 1}, {3, 5, 7}
    };
    int i;
    for (i = 0; i < N; i++)
        corners[i].name = 'A' + i;
    for (i = 0; i < (int)(sizeof given / sizeof given[0]); i++)
        join(given[i][0], given[i][1], given[i][2]);
    search(corners);
    for (i = 0; i < N; i++) {
        if (corners[i].distance == FAR)
            putchar('-');
        else
            number(corners[i].distance);
        putchar(' ');
        way(&corners[i]);
        putchar('\n');
    }
    return corners[5].distance;
}
