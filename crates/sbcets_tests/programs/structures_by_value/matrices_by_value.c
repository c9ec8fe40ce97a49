#include <stdio.h>

#define N 3

struct matrix {
    long cell[N][N];
};

struct vector {
    long x[N];
};

struct matrix diagonal(long d)
{
    struct matrix m = {{{0}}};
    int i;
    for (i = 0; i < N; i++)
        m.cell[i][i] = d;
    return m;
}

struct matrix product(struct matrix a, struct matrix b)
{
    struct matrix c = diagonal(0);
    int i, j, k;
    for (i = 0; i < N; i++)
        for (j = 0; j < N; j++)
            for (k = 0; k < N; k++)
                c.cell[i][j] += a.cell[i][k] * b.cell[k][j];
    return c;
}

struct matrix power(struct matrix m, unsigned n)
{
    struct matrix result = diagonal(1);
    for (; n; n >>= 1, m = product(m, m))
        if (n & 1)
            result = product(result, m);
    return result;
}

struct matrix sum(struct matrix a, const struct matrix *b)
{
    int i;
    for (i = 0; i < N * N; i++)
        a.cell[i / N][i % N] += b->cell[i / N][i % N];
    return a;
}

struct vector applied(struct matrix m, struct vector v)
{
    struct vector r = {{0, 0, 0}};
    int i, j;
    for (i = 0; i < N; i++)
        for (j = 0; j < N; j++)
            r.x[i] += m.cell[i][j] * v.x[j];
    return r;
}

void show(struct matrix m)
{
    int i;
    for (i = 0; i < N; i++)
        printf("%ld %ld %ld\n", m.cell[i][0], m.cell[i][1], m.cell[i][2]);
}

int main(void)
{
    struct matrix tribonacci = {{{1, 1, 1}, {1, 0, 0}, {0, 1, 0}}}, table[4], all = diagonal(0);
    struct vector v = {{1, 0, 0}};
    int i;
    for (i = 0; i < 4; i++) {
        table[i] = power(tribonacci, 5 * i);
        all = sum(all, &table[i]);
    }
    show(all);
    v = applied(table[3], v);
    printf("%ld %ld %ld\n", v.x[0], v.x[1], v.x[2]);
    v = applied(power(tribonacci, 40), (table[0] = diagonal(2), v));
    printf("%ld\n", v.x[0]);
    show(product(table[0], tribonacci));
    return (int)(v.x[1] % 200);
}
