#include <stdio.h>

void number(long n)
{
    char digits[24];
    int count = 0;
    if (n < 0) {
        putchar('-');
        n = -n;
    }
    do {
        digits[count++] = '0' + n % 10;
        n /= 10;
    } while (n > 0);
    while (count > 0)
        putchar(digits[--count]);
}
void field(long n, int behind)
{
    number(n);
    putchar(behind);
}
#define SIZE 100

static int parent[SIZE], rank[SIZE];

int find(int x)
{
    int *p = &parent[x];
    if (*p != x)
        *p = find(*p);
    return *p;
}

int join(int a, int b)
{
    a = find(a);
    b = find(b);
    if (a == b)
        return 0;
    if (rank[a] < rank[b]) {
        int t = a;
        a = b;
        b = t;
    }
    parent[b] = a;
    if (rank[a] == rank[b])
        rank[a]++;
    return 1;
}

struct edge { short a, b, weight; } edges[120];

int main(void)
{
    int i, j, n = 0, total = 0, used = 0, sets = 0;
    for (i = 0; i < SIZE; i++)
        parent[i] = i;
    for (i = 0; i < 120; i++) {
        struct edge *e = &edges[n++];
        e->a = i * 37 % SIZE;
        e->b = (i * i + 11) % SIZE;
        e->weight = (i * 53 + 7) % 101;
    }
    /* by weight, the smallest first */
    for (i = 1; i < n; i++)
        for (j = i; j > 0 && edges[j - 1].weight > edges[j].weight; j--) {
            struct edge *x = &edges[j - 1], *y = x + 1;
            short a = x->a, b = x->b, weight = x->weight;
            x->a = y->a, x->b = y->b, x->weight = y->weight;
            y->a = a, y->b = b, y->weight = weight;
        }
    for (i = 0; i < n; i++)
        if (join(edges[i].a, edges[i].b)) {
            total += edges[i].weight;
            used++;
        }
    for (i = 0; i < SIZE; i++)
        sets += find(i) == i;
    field(used, ' ');
    field(total, ' ');
    field(sets, '\n');
    return rank[find(0)];
}
