#include <stdio.h>

void number(long n)
{
    if (n < 0) {
        putchar('-');
        n = -n;
    }
    if (n > 9)
        number(n / 10);
    putchar('0' + n % 10);
}
void line(long n)
{
    number(n);
    putchar('\n');
}

int main(void)
{
    int a, b, c, d, e, f, t, round, seed = 12345;
    for (round = 0; round < 10; round++) {
        seed = (seed * 75 + 74) % 65537;
        a = seed % 97;
        b = seed / 7 % 89;
        c = seed / 11 % 83;
        d = seed / 13 % 79;
        e = seed / 17 % 73;
        f = seed / 19 % 71;
        for (t = 1; t;) {
            t = 0;
            if (a > b) { t = a; a = b; b = t; t = 1; }
            if (b > c) { t = b; b = c; c = t; t = 1; }
            if (c > d) { t = c; c = d; d = t; t = 1; }
            if (d > e) { t = d; d = e; e = t; t = 1; }
            if (e > f) { t = e; e = f; f = t; t = 1; }
        }
        number(a); putchar(' ');
        number(b); putchar(' ');
        number(c); putchar(' ');
        number(d); putchar(' ');
        number(e); putchar(' ');
        line(f);
    }
    return f;
}
