#include <stdio.h>

void number(long n)
{
    char digits[24];
    int count = 0;
    if (n < 0) {
        putchar('-');
        n = -n;
    }
    do {
        digits[count++] = '0' + n % 10;
        n /= 10;
    } while (n > 0);
    while (count > 0)
        putchar(digits[--count]);
}
void field(long n, int behind)
{
    number(n);
    putchar(behind);
}
struct stacks {
    short cells[12];
    short *low, *high;
};

void start(struct stacks *s)
{
    s->low = s->cells;
    s->high = s->cells + 12;
}

int push_low(struct stacks *s, int value)
{
    if (s->low == s->high)
        return 0;
    *s->low++ = value;
    return 1;
}

int push_high(struct stacks *s, int value)
{
    if (s->low == s->high)
        return 0;
    *--s->high = value;
    return 1;
}

int main(void)
{
    struct stacks s;
    int i, refused = 0;
    start(&s);
    for (i = 0; i < 20; i++) {
        int is_taken = i % 3 ? push_low(&s, i * 1000) : push_high(&s, -i * 1000);
        refused += !is_taken;
    }
    field(refused, '\n');
    field(s.low - s.cells, ' ');
    field(s.cells + 12 - s.high, '\n');
    while (s.low > s.cells)
        field(*--s.low, ' ');
    putchar('\n');
    while (s.high < &s.cells[12])
        field(*s.high++, ' ');
    putchar('\n');
    return refused;
}
