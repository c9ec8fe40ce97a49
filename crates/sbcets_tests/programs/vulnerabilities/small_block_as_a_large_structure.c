#include <stdio.h>
#include <stdlib.h>

enum kind { SQUARE, BOX };

struct square { enum kind kind; int side; };
struct box { enum kind kind; int side, height; };

struct square *square(int side)
{
    struct square *s = malloc(sizeof *s);
    s->kind = SQUARE;
    s->side = side;
    return s;
}

int area(const struct square *s)
{
    if (s->kind == BOX)
        return s->side * ((const struct box *)s)->height;
    return s->side * s->side;
}

int main(void)
{
    struct square *s = square(2);
    printf("square %d\n", area(s));
    s->kind = BOX;
    printf("box %d\n", area(s));
    return 0;
}
