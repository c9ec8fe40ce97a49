#include <stdio.h>
#include <stdlib.h>

/* a calculator of fractions in which each value is a structure */
struct fraction { long over, under; };
struct answer { struct fraction value; const char *rest; int is_good; };

static long divisor(long a, long b)
{
    while (b) {
        long r = a % b;
        a = b;
        b = r;
    }
    return a < 0 ? -a : a;
}

static struct fraction of(long over, long under)
{
    struct fraction f;
    long d = divisor(over, under);
    if (d == 0)
        d = 1;
    if (under < 0)
        d = -d;
    f.over = over / d;
    f.under = under / d;
    return f;
}

static struct fraction combined(char operator, struct fraction a, struct fraction b)
{
    switch (operator) {
    case '+': return of(a.over * b.under + b.over * a.under, a.under * b.under);
    case '-': return of(a.over * b.under - b.over * a.under, a.under * b.under);
    case '*': return of(a.over * b.over, a.under * b.under);
    default: return of(a.over * b.under, a.under * b.over);
    }
}

static struct answer sum(const char *s);

static struct answer atom(const char *s)
{
    struct answer a = {{0, 1}, s, 0};
    if (*s == '(') {
        a = sum(s + 1);
        a.is_good = a.is_good && *a.rest == ')';
        if (a.is_good)
            a.rest++;
        return a;
    }
    for (; *a.rest >= '0' && *a.rest <= '9'; a.rest++) {
        a.value.over = a.value.over * 10 + (*a.rest - '0');
        a.is_good = 1;
    }
    return a;
}

static struct answer chain(const char *s, char first, char second, struct answer (*part)(const char *))
{
    struct answer a = part(s), b;
    while (a.is_good && (*a.rest == first || *a.rest == second)) {
        b = part(a.rest + 1);
        b.value = combined(*a.rest, a.value, b.value);
        b.is_good = b.is_good && b.value.under != 0;
        a = b;
    }
    return a;
}

static struct answer product(const char *s)
{
    return chain(s, '*', '/', atom);
}

static struct answer sum(const char *s)
{
    return chain(s, '+', '-', product);
}

int main(void)
{
    static const char *const lines[] = {
        "1/2+1/3", "(1-3)/4*2", "1/3+1/3+1/3", "7/(2-1-1)", "2*(3", "1/2/(3/4)", "12345*67890/12345", "+"
    };
    unsigned i;
    int bad = 0;
    for (i = 0; i < sizeof lines / sizeof lines[0]; i++) {
        struct answer a = sum(lines[i]);
        if (!a.is_good || *a.rest) {
            printf("%s: bad at %d\n", lines[i], (int)(a.rest - lines[i]));
            bad++;
        } else if (sum(lines[i]).value.under == 1)
            printf("%s = %ld\n", lines[i], a.value.over);
        else
            printf("%s = %ld/%ld\n", lines[i], a.value.over, a.value.under);
    }
    return bad;
}
