#include <stdio.h>

void number(long n)
{
    char digits[24];
    int count = 0;
    if (n < 0) {
        putchar('-');
        n = -n;
    }
    do {
        digits[count++] = '0' + n % 10;
        n /= 10;
    } while (n > 0);
    while (count > 0)
        putchar(digits[--count]);
}
void field(long n, int behind)
{
    number(n);
    putchar(behind);
}
void text(char *s)
{
    while (*s)
        putchar(*s++);
}
/* structures by value that hold pointers */
struct date { short year; unsigned char month, day; };
struct event { const char *name; struct date on; const struct event *after; };

int is_leap(int y)
{
    return y % 4 == 0 && (y % 100 != 0 || y % 400 == 0);
}

struct date next(struct date d)
{
    static const unsigned char days[] = {31, 28, 31, 30, 31, 30, 31, 31, 30, 31, 30, 31};
    if (d.day < days[d.month - 1] + (d.month == 2 && is_leap(d.year)))
        d.day++;
    else {
        d.day = 1;
        if (d.month++ == 12) {
            d.month = 1;
            d.year++;
        }
    }
    return d;
}

struct event later(struct event e, int days, const char *name)
{
    while (days-- > 0)
        e.on = next(e.on);
    e.name = name;
    return e;
}

void show(struct event e)
{
    text((char *)e.name);
    putchar(' ');
    field(e.on.year, '-');
    field(e.on.month, '-');
    field(e.on.day, e.after ? ' ' : '\n');
    if (e.after)
        show(*e.after);
}

int main(void)
{
    struct event first = {"start", {1999, 12, 30}, 0}, second, third;
    second = later(first, 61, "leap day");
    second.after = &first;
    third = later(second, 366, "a year on");
    third.after = &second;
    show(third);
    third = second = first;
    second.after = &third;
    show(later(second, 2, "turn"));
    return third.after == 0;
}
