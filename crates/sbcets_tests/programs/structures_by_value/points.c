#include <stdio.h>

void number(long n)
{
    char digits[24];
    int count = 0;
    if (n < 0) {
        putchar('-');
        n = -n;
    }
    do {
        digits[count++] = '0' + n % 10;
        n /= 10;
    } while (n > 0);
    while (count > 0)
        putchar(digits[--count]);
}
void field(long n, int behind)
{
    number(n);
    putchar(behind);
}
/* structures by value, in arrays and in structures */
struct point { short x, y; };
struct box { struct point low, high; char name; };

struct point point(int x, int y)
{
    struct point p = {0, 0};
    p.x = x;
    p.y = y;
    return p;
}

struct box box(struct point a, struct point b, char name)
{
    struct box r;
    r.low = point(a.x < b.x ? a.x : b.x, a.y < b.y ? a.y : b.y);
    r.high = point(a.x < b.x ? b.x : a.x, a.y < b.y ? b.y : a.y);
    r.name = name;
    return r;
}

struct box both(struct box a, struct box b)
{
    if (b.low.x > a.low.x)
        a.low.x = b.low.x;
    if (b.low.y > a.low.y)
        a.low.y = b.low.y;
    if (b.high.x < a.high.x)
        a.high.x = b.high.x;
    if (b.high.y < a.high.y)
        a.high.y = b.high.y;
    a.name ^= ' ';
    return a;
}

int area(struct box b)
{
    int w = b.high.x - b.low.x, h = b.high.y - b.low.y;
    return w > 0 && h > 0 ? w * h : 0;
}

void show(const struct box *b)
{
    putchar(b->name);
    field(b->low.x, ',');
    field(b->low.y, ' ');
    field(b->high.x, ',');
    field(b->high.y, ' ');
    field(area(*b), '\n');
}

int main(void)
{
    struct box boxes[3], all, *p;
    int i, j;
    boxes[0] = box(point(0, 0), point(10, 6), 'a');
    boxes[1] = box(point(12, -2), point(4, 4), 'b');
    boxes[2] = box(point(-5, 20), point(5, 3), 'c');
    for (i = 0; i < 3; i++)
        for (j = i + 1; j < 3; j++) {
            all = both(boxes[i], boxes[j]);
            show(&all);
        }
    all = boxes[0];
    for (p = boxes; p < boxes + 3; p++)
        *p = both(*p, all);
    for (p = boxes; p < boxes + 3; p++)
        show(p);
    return sizeof all;
}
