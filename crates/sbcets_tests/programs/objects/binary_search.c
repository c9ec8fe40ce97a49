#include <stdio.h>

void number(long n)
{
    char digits[21], *p = &digits[20];
    int negative = n < 0;
    *p = 0;
    do {
        int d = n % 10;
        *--p = '0' + (d < 0 ? -d : d);
        n /= 10;
    } while (n != 0);
    if (negative)
        *--p = '-';
    while (*p)
        putchar(*p++);
}
void field(long n, int behind)
{
    number(n);
    putchar(behind);
}
const int *find(const int *from, const int *to, int wanted)
{
    while (from < to) {
        const int *middle = from + (to - from) / 2;
        if (*middle < wanted)
            from = middle + 1;
        else
            to = middle;
    }
    return from;
}

int squares[64];

int main(void)
{
    const int *end = squares + 64;
    int i, found = 0, n;
    for (i = 0; i < 64; i++)
        squares[i] = i * i / 2;
    for (n = -1; n < 2010; n += 37) {
        const int *at = find(squares, end, n);
        if (at != end && *at == n) {
            found++;
            field(n, '@');
            field(at - squares, ' ');
        }
    }
    putchar('\n');
    field(found, '\n');
    field(find(squares, end, 1984) - squares, ' ');
    field(find(squares, end, 5000) - squares, ' ');
    field(find(squares, squares, 5) == squares, ' ');
    field(find(squares, end, 0) == squares, '\n');
    return find(squares, end, 100) - squares;
}
