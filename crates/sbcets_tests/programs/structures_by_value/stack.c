#include <stdio.h>

void number(long n)
{
    char digits[24];
    int count = 0;
    if (n < 0) {
        putchar('-');
        n = -n;
    }
    do {
        digits[count++] = '0' + n % 10;
        n /= 10;
    } while (n > 0);
    while (count > 0)
        putchar(digits[--count]);
}
void field(long n, int behind)
{
    number(n);
    putchar(behind);
}
/* a stack that is a value: what is pushed on a copy is not on the first */
struct stack {
    int count;
    int items[6];
};

struct stack pushed(struct stack s, int item)
{
    if (s.count < 6)
        s.items[s.count++] = item;
    return s;
}

struct stack popped(struct stack s)
{
    if (s.count > 0)
        s.count--;
    return s;
}

int top(struct stack s)
{
    return s.count > 0 ? s.items[s.count - 1] : -1;
}

int main(void)
{
    struct stack versions[8] = {{0, {0}}}, *p = versions;
    int i;
    for (i = 1; i < 8; i++, p++)
        p[1] = i % 3 ? pushed(*p, i * i) : popped(*p);
    for (p = versions; p < versions + 8; p++) {
        field(p->count, ':');
        field(top(*p), ' ');
    }
    putchar('\n');
    versions[0] = pushed(pushed(versions[7], 7), 8);
    field(top(versions[0]), ' ');
    field(top(popped(versions[0])), ' ');
    field(top(popped(popped(versions[0]))), ' ');
    field(popped(popped(versions[0])).count, '\n');
    return top(versions[1]) + versions[7].count;
}
