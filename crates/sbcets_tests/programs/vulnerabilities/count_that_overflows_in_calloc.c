#include <stdio.h>
#include <stdlib.h>

struct picture { size_t width, height; unsigned long *points; };

int make(struct picture *p, size_t width, size_t height)
{
    p->width = width;
    p->height = height;
    p->points = calloc(width * height, sizeof *p->points);
    p->points[0] = 1;
    return 1;
}

int main(void)
{
    struct picture p;
    if (make(&p, 2, 2))
        printf("%lu ok\n", p.width * p.height);
    free(p.points);
    if (make(&p, 0x8000000000000000, 3))
        printf("%lu ok\n", p.width);
    return 0;
}
