#include <stdio.h>

struct shape { char kind; int size; };
struct circle { char kind; int size; int radius; };

int radius(struct shape *s)
{
    struct circle *c = (struct circle *)s;
    putchar(c->kind);
    return c->radius;
}

int main(void)
{
    struct shape square = {'s', 4};
    return radius(&square);
}
