#include <stdio.h>
#include <string.h>

struct sale {
    const char *what;
    unsigned count;
    long cents;
};

static const struct sale sales[] = {
    {"paper", 120, 1999}, {"ink (black)", 3, 45050}, {"stapler", 12, 1105},
    {"returned ink", 1, -45050}, {"pens", 1000, 7}
};

static void spaces(int n)
{
    while (n-- > 0)
        putchar(' ');
}

static int digits(long n)
{
    int d = n < 0 ? 2 : 1;
    while ((n /= 10) != 0)
        d++;
    return d;
}

static void left(const char *s, int width)
{
    printf("%s", s);
    spaces(width - (int)strlen(s));
}

static void right(long n, int width)
{
    spaces(width - digits(n));
    printf("%ld", n);
}

static void money(long cents, int width)
{
    long whole = cents / 100, rest = cents % 100;
    int is_negative = cents < 0;
    spaces(width - digits(whole < 0 ? -whole : whole) - 3 - is_negative);
    if (is_negative) {
        putchar('-');
        whole = -whole;
        rest = -rest;
    }
    printf("%ld.%c%c", whole, '0' + (int)(rest / 10), '0' + (int)(rest % 10));
}

int main(void)
{
    const struct sale *s;
    long total = 0;
    int n;
    for (s = sales; s < sales + sizeof sales / sizeof *sales; s++) {
        long sum = s->count * s->cents;
        left(s->what, 14);
        right(s->count, 5);
        money(s->cents, 9);
        money(sum, 10);
        puts("");
        total += sum;
    }
    left("total", 28);
    money(total, 10);
    n = printf("\n%d%% of %s is %ld cents, 0x%x\n", 19, "it", total * 19 / 100, (unsigned)total);
    return n;
}
