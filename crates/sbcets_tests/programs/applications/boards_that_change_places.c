#include <stdio.h>
#include <stdlib.h>
#include <string.h>

/* cells on a board of any size, read from the input; two boards whose pointers change places */
struct board { int width, height; char *cells; };

static struct board *board(int width, int height)
{
    struct board *b = malloc(sizeof *b);
    b->width = width;
    b->height = height;
    b->cells = memset(malloc(width * height), '.', width * height);
    return b;
}

static char *cell(const struct board *b, int x, int y)
{
    x = (x + b->width) % b->width;
    y = (y + b->height) % b->height;
    return &b->cells[y * b->width + x];
}

static void step(const struct board *from, struct board *to)
{
    int x, y, dx, dy;
    for (y = 0; y < from->height; y++)
        for (x = 0; x < from->width; x++) {
            int n = 0;
            for (dy = -1; dy <= 1; dy++)
                for (dx = -1; dx <= 1; dx++)
                    n += (dx || dy) && *cell(from, x + dx, y + dy) == 'o';
            *cell(to, x, y) = n == 3 || (n == 2 && *cell(from, x, y) == 'o') ? 'o' : '.';
        }
}

static int read_number(void)
{
    int c, n = 0;
    while ((c = getchar()) >= '0' && c <= '9')
        n = n * 10 + c - '0';
    return n;
}

int main(void)
{
    int width = read_number(), height = read_number(), turns = read_number(), x = 0, y = 0, c, turn, alive = 0;
    struct board *now = board(width, height), *next = board(width, height), *t;
    while ((c = getchar()) != EOF)
        if (c == '\n') {
            x = 0;
            y++;
        } else
            *cell(now, x++, y) = c;
    for (turn = 1; turn <= turns; turn++) {
        step(now, next);
        t = now;
        now = next;
        next = t;
        if (memcmp(now->cells, next->cells, width * height) == 0)
            break;
    }
    for (y = 0; y < height; y++) {
        for (x = 0; x < width; x++) {
            putchar(*cell(now, x, y));
            alive += *cell(now, x, y) == 'o';
        }
        puts("");
    }
    printf("%d after %d\n", alive, turn);
    free(now->cells);
    free(next->cells);
    free(now);
    free(next);
    return alive;
}
