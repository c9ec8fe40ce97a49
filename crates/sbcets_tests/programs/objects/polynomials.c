#include <stdio.h>

void number(long n)
{
    char digits[24];
    int count = 0;
    if (n < 0) {
        putchar('-');
        n = -n;
    }
    do {
        digits[count++] = '0' + n % 10;
        n /= 10;
    } while (n > 0);
    while (count > 0)
        putchar(digits[--count]);
}
struct polynomial {
    int degree;
    long c[12];
};

void show(const struct polynomial *p)
{
    int i, is_first = 1;
    for (i = p->degree; i >= 0; i--) {
        long c = p->c[i];
        if (c == 0)
            continue;
        if (!is_first || c < 0)
            putchar(c < 0 ? '-' : '+');
        if (c < 0)
            c = -c;
        if (c != 1 || i == 0)
            number(c);
        if (i > 0)
            putchar('x');
        if (i > 1) {
            putchar('^');
            number(i);
        }
        is_first = 0;
    }
    if (is_first)
        putchar('0');
    putchar('\n');
}

void product(const struct polynomial *a, const struct polynomial *b, struct polynomial *to)
{
    int i, j;
    to->degree = a->degree + b->degree;
    for (i = 0; i <= to->degree; i++)
        to->c[i] = 0;
    for (i = 0; i <= a->degree; i++)
        for (j = 0; j <= b->degree; j++)
            to->c[i + j] += a->c[i] * b->c[j];
}

void derive(struct polynomial *p)
{
    int i;
    for (i = 1; i <= p->degree; i++)
        p->c[i - 1] = i * p->c[i];
    if (p->degree > 0)
        p->degree--;
    else
        p->c[0] = 0;
}

long at(const struct polynomial *p, long x)
{
    long v = 0;
    int i = p->degree + 1;
    while (--i >= 0)
        v = v * x + p->c[i];
    return v;
}

int main(void)
{
    struct polynomial a = {2, {-1, 0, 1}}, b = {3, {5, -1, 0, 2}}, c, d;
    show(&a);
    show(&b);
    product(&a, &b, &c);
    show(&c);
    product(&c, &a, &d);
    derive(&d);
    show(&d);
    number(at(&d, -3));
    putchar('\n');
    while (d.degree > 0)
        derive(&d);
    show(&d);
    derive(&d);
    show(&d);
    return (int)(at(&c, 2) & 255);
}
