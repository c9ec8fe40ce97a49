#include <stdio.h>
#include <stdlib.h>

/* a triangle of rows of different lengths, and the best way down */
static long **triangle(int n)
{
    long **t = malloc(n * sizeof *t);
    int i, j;
    for (i = 0; i < n; i++) {
        t[i] = calloc(i + 1, sizeof **t);
        for (j = 0; j <= i; j++)
            t[i][j] = (i * 13 + j * 29 + 7) % 31;
    }
    return t;
}

static void drop(long **t, int n)
{
    while (n > 0)
        free(t[--n]);
    free(t);
}

static long **best(long **t, int n)
{
    long **b = malloc(n * sizeof(long *)), **row = b + n;
    int j;
    while (row-- > b) {
        int i = (int)(row - b);
        *row = malloc((i + 1) * sizeof **row);
        for (j = 0; j <= i; j++) {
            long *under = i + 1 < n ? &row[1][j] : NULL;
            (*row)[j] = t[i][j] + (under ? (under[0] > under[1] ? under[0] : under[1]) : 0);
        }
        if (row == b)
            break;
    }
    return b;
}

int main(void)
{
    enum { N = 12 };
    long **t = triangle(N), **b = best(t, N), sum = 0;
    int i, j = 0;
    for (i = 0; i < N; i++) {
        sum += t[i][j];
        printf("%ld%c", t[i][j], i + 1 < N ? '+' : '=');
        if (i + 1 < N && b[i + 1][j + 1] > b[i + 1][j])
            j++;
    }
    printf("%ld %ld\n", sum, b[0][0]);
    j += sum == b[0][0] ? 0 : 99;
    drop(t, N);
    drop(b, N);
    return j;
}
