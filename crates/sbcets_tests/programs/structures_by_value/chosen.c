#include <stdio.h>

void number(long n)
{
    char digits[24];
    int count = 0;
    if (n < 0) {
        putchar('-');
        n = -n;
    }
    do {
        digits[count++] = '0' + n % 10;
        n /= 10;
    } while (n > 0);
    while (count > 0)
        putchar(digits[--count]);
}
void field(long n, int behind)
{
    number(n);
    putchar(behind);
}
/* structures and unions as operands of ?: and , and as members of results */
struct pair { int a, b; };
union value { long number; char letters[8]; struct pair pair; };

int made;

struct pair pair(int a, int b)
{
    struct pair p;
    p.a = a;
    p.b = b;
    made++;
    return p;
}

union value number_of(long n)
{
    union value v;
    v.number = n;
    return v;
}

struct pair larger(struct pair p, struct pair q)
{
    return p.a * p.b > q.a * q.b ? p : q;
}

struct pair best(int n)
{
    struct pair b = {0, 0};
    int i;
    for (i = 0; i < n; i++)
        b = larger(b, pair(i, n - i));
    return b;
}

int main(void)
{
    struct pair p = {3, 4}, q = {5, 2}, r;
    union value v = {42}, w;
    r = (made++, p.a > q.a) ? p : q;
    field(r.a, ' ');
    field((p.a < q.a ? p : q).b, ' ');
    field(larger(p, q).a, ' ');
    field(best(9).b, '\n');
    w = v;
    w.letters[1] = 1;
    field(w.number, ' ');
    field(v.number, ' ');
    v = number_of(0x700000009);
    field(v.pair.a, ' ');
    field(number_of(-1).pair.b, ' ');
    r = v.pair;
    field(r.b, '\n');
    return made;
}
