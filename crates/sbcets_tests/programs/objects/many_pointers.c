#include <stdio.h>

void number(long n)
{
    char digits[24];
    int count = 0;
    if (n < 0) {
        putchar('-');
        n = -n;
    }
    do {
        digits[count++] = '0' + n % 10;
        n /= 10;
    } while (n > 0);
    while (count > 0)
        putchar(digits[--count]);
}
void field(long n, int behind)
{
    number(n);
    putchar(behind);
}
/* more pointers than there are registers: parameters, operands, and results that wait for calls */
struct cell { int value; struct cell *next; };

long weighted(int *a, int *b, int *c, int *d, int *e, int *f, int *g, int *h, char *s, struct cell *first, int **to)
{
    *to = *a > *h ? a : h;
    return *a + 10l * *b + 100l * *c + 1000l * *d + 10000l * *e + 100000l * *f + 1000000l * *g + 10000000l * *h
        + s[1] + first->next->value;
}

int *larger(int *p, int *q)
{
    return *p < *q ? q : p;
}

int *largest(int *a, int *b, int *c, int *d)
{
    return larger(larger(a, b), larger(larger(b, c), larger(c, d)));
}

int *step(int **at, int by)
{
    int *old = *at;
    *at += by;
    return old;
}

int main(void)
{
    int n[8] = {1, 2, 3, 4, 5, 6, 7, 8}, *to = 0, *p = n, *q = n + 7;
    struct cell last = {40, 0}, first = {30, &last};
    long sum = weighted(&n[7], n + 6, n + 5, n + 4, n + 3, &n[2], 1 + n, n, "ab", &first, &to);
    field(sum, ' ');
    field(*to + *largest(n, n + 3, &n[6], n + 2) * *larger(largest(n, n + 1, n + 2, n), to), ' ');
    field(to - n, '\n');
    sum = sum % 200 + *step(&p, 2);
    sum += *step(&p, 3) * 1000;
    sum += *step(&p, -4) * 10000l;
    field(sum + *p * 100000l, ' ');
    p++, q--;
    field((*p + *(p + 1) * 10) * (*q - *(q - 1)) - *p + *q, ' ');
    p++, --q;
    field((p - n) * 10 + (q - p), '\n');
    field(*(p < q ? p == 0 ? q : p : q) + (p != q && q > p) + (&n[3] == p) * 50 + !p, ' ');
    *step(&q, -2) = 3;
    *p += *q -= *larger(p, q + 1);
    for (p = n; p < n + 8; p++)
        field(*p, p < n + 7 ? ' ' : '\n');
    return (int)(sum % 251);
}
