#include <stdio.h>

void number(long n)
{
    char digits[24];
    int count = 0;
    if (n < 0) {
        putchar('-');
        n = -n;
    }
    do {
        digits[count++] = '0' + n % 10;
        n /= 10;
    } while (n > 0);
    while (count > 0)
        putchar(digits[--count]);
}
void field(long n, int behind)
{
    number(n);
    putchar(behind);
}
struct person {
    int number;
    struct person *next, *before;
};

static struct person ring[41];

void leave(struct person *p)
{
    p->before->next = p->next;
    p->next->before = p->before;
    p->next = p->before = NULL;
}

struct person *after(struct person *p, int steps)
{
    while (steps-- > 0)
        p = p->next;
    return p;
}

int last_of(int people, int step, int shown)
{
    struct person *p;
    int i, left = people;
    for (i = 0; i < people; i++) {
        ring[i].number = i + 1;
        ring[i].next = &ring[(i + 1) % people];
        ring[i].before = &ring[(i + people - 1) % people];
    }
    p = &ring[people - 1];
    while (left > 1) {
        struct person *gone = after(p, step);
        p = gone->before;
        leave(gone);
        if (people - left-- < shown)
            field(gone->number, ' ');
    }
    for (i = 0; i < people; i++)
        if (ring[i].next == &ring[i] && ring[i].before == ring + i)
            return ring[i].number;
    return 0;
}

int main(void)
{
    int n;
    field(last_of(41, 3, 10), '\n');
    for (n = 1; n <= 12; n++)
        field(last_of(n, 2, 0), n < 12 ? ' ' : '\n');
    return last_of(40, 7, 0);
}
