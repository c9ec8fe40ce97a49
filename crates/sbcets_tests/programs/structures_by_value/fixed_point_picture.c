#include <stdio.h>
#include <stdlib.h>

typedef long fixed;

enum { ONE = 4096, LIMIT = 40 };

struct point { fixed x, y; };

static fixed times(fixed a, fixed b)
{
    return a * b / ONE;
}

static struct point next(struct point z, struct point c)
{
    struct point r;
    r.x = times(z.x, z.x) - times(z.y, z.y) + c.x;
    r.y = 2 * times(z.x, z.y) + c.y;
    return r;
}

static int steps(struct point c)
{
    struct point z = {0, 0};
    int n;
    for (n = 0; n < LIMIT; n++) {
        z = next(z, c);
        if (times(z.x, z.x) + times(z.y, z.y) > 4 * ONE)
            return n;
    }
    return LIMIT;
}

static char *line(int row, int width, int *inside)
{
    static const char shades[] = " .:-=+*%@";
    char *s = malloc(width + 1);
    int i;
    for (i = 0; i < width; i++) {
        struct point c;
        int n;
        c.x = -2 * ONE + 3L * ONE * i / width;
        c.y = -5 * ONE / 4 + 5L * ONE * row / 16;
        n = steps(c);
        *inside += n == LIMIT;
        s[i] = shades[n * (int)(sizeof shades - 2) / LIMIT];
    }
    s[width] = 0;
    while (width > 0 && s[width - 1] == ' ')
        s[--width] = '\0';
    return s;
}

int main(void)
{
    char *lines[9];
    int i, inside = 0;
    for (i = 0; i < 9; i++)
        lines[i] = line(i, 30, &inside);
    for (i = 8; i >= 0; i--) {
        puts(lines[i]);
        free(lines[i]);
    }
    return inside;
}
