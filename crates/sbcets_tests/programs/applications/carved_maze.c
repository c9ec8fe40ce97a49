#include <stdio.h>
#include <stdlib.h>

enum { WIDTH = 19, HEIGHT = 9 };

static unsigned long seed = 42;

static int chance(int n)
{
    seed = seed * 6364136223846793005ul + 1442695040888963407ul;
    return (int)(seed >> 33) % n;
}

int main(void)
{
    static const int steps[4][2] = {{0, 2}, {0, -2}, {2, 0}, {-2, 0}};
    char **rows = malloc(HEIGHT * sizeof *rows);
    struct place { int y, x; } *stack = malloc(sizeof(struct place) * WIDTH * HEIGHT), *top = stack;
    int i, j, open = 0, depth = 1;
    for (i = 0; i < HEIGHT; i++) {
        rows[i] = malloc(WIDTH + 1);
        for (j = 0; j < WIDTH; j++)
            rows[i][j] = '#';
        rows[i][WIDTH] = '\0';
    }
    top->y = top->x = 1;
    rows[1][1] = ' ';
    while (depth > 0) {
        top = &stack[depth - 1];
        int ways[4], count = 0;
        for (i = 0; i < 4; i++) {
            int y = top->y + steps[i][0], x = top->x + steps[i][1];
            if (y > 0 && y < HEIGHT && x > 0 && x < WIDTH && rows[y][x] == '#')
                ways[count++] = i;
        }
        if (count == 0) {
            depth--;
            continue;
        }
        i = ways[chance(count)];
        rows[top->y + steps[i][0] / 2][top->x + steps[i][1] / 2] = ' ';
        top[1].y = top->y + steps[i][0];
        top[1].x = top->x + steps[i][1];
        depth++;
        rows[top[1].y][top[1].x] = ' ';
    }
    for (i = 0; i < HEIGHT; i++) {
        puts(rows[i]);
        for (j = 0; j < WIDTH; j++)
            open += rows[i][j] == ' ';
        free(rows[i]);
    }
    free(rows);
    free(stack);
    return open;
}
