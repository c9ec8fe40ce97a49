#include <stdio.h>
#include <stdlib.h>
#include <string.h>

/* digits to the base 10000, the lowest first */
struct number {
    int length, room;
    unsigned *digits;
};

enum { BASE = 10000 };

struct number *make(unsigned value)
{
    struct number *n = malloc(sizeof *n);
    n->length = 1;
    n->room = 4;
    n->digits = calloc(4, sizeof(unsigned));
    n->digits[0] = value;
    return n;
}

void drop(struct number *n)
{
    free(n->digits);
    free(n);
}

void append(struct number *n, unsigned digit)
{
    if (n->length == n->room) {
        n->room *= 2;
        n->digits = realloc(n->digits, n->room * sizeof(unsigned));
    }
    n->digits[n->length++] = digit;
}

struct number *product(const struct number *a, const struct number *b)
{
    struct number *p = make(0);
    int i, j;
    while (p->length < a->length + b->length)
        append(p, 0);
    for (i = 0; i < a->length; i++) {
        unsigned carry = 0;
        for (j = 0; j < b->length; j++) {
            unsigned *d = &p->digits[i + j];
            carry += *d + a->digits[i] * b->digits[j];
            *d = carry % BASE;
            carry /= BASE;
        }
        p->digits[i + b->length] += carry;
    }
    while (p->length > 1 && p->digits[p->length - 1] == 0)
        p->length--;
    return p;
}

struct number *power(unsigned base, int exponent)
{
    struct number *result = make(1), *square = make(base), *old;
    while (exponent > 0) {
        if (exponent % 2) {
            old = result;
            result = product(old, square);
            drop(old);
        }
        old = square;
        square = product(old, old);
        drop(old);
        exponent /= 2;
    }
    drop(square);
    return result;
}

void add(struct number *to, const struct number *n)
{
    unsigned carry = 0;
    int i;
    for (i = 0; i < n->length || carry; i++) {
        if (i == to->length)
            append(to, 0);
        carry += to->digits[i] + (i < n->length ? n->digits[i] : 0);
        to->digits[i] = carry % BASE;
        carry /= BASE;
    }
}

void show(const struct number *n)
{
    int i = n->length - 1;
    printf("%u", n->digits[i]);
    while (i-- > 0) {
        unsigned d = n->digits[i];
        printf("%u%u%u%u", d / 1000, d / 100 % 10, d / 10 % 10, d % 10);
    }
    printf("\n");
}

int main(void)
{
    struct number *n = power(2, 200), *a = make(0), *b = make(1), *t;
    int i;
    show(n);
    drop(n);
    n = power(37, 25);
    show(n);
    for (i = 0; i < 200; i++) {
        add(a, b);
        t = a;
        a = b;
        b = t;
    }
    show(a);
    add(n, a);
    show(n);
    i = n->length;
    drop(n);
    drop(a);
    drop(b);
    return i;
}
