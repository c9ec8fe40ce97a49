#include <stdio.h>

#define ROWS 8
#define COLUMNS 10

typedef char grid[ROWS][COLUMNS];

int neighbours(grid g, int row, int column)
{
    static const signed char steps[8][2] = {
        {-1, -1}, {-1, 0}, {-1, 1}, {0, -1}, {0, 1}, {1, -1}, {1, 0}, {1, 1}
    };
    int i, count = 0;
    for (i = 0; i < 8; i++) {
        int r = (row + steps[i][0] + ROWS) % ROWS;
        int c = (column + steps[i][1] + COLUMNS) % COLUMNS;
        count += g[r][c] == '#';
    }
    return count;
}

void step(grid from, grid to)
{
    int r, c;
    for (r = 0; r < ROWS; r++)
        for (c = 0; c < COLUMNS; c++) {
            int n = neighbours(from, r, c);
            to[r][c] = n == 3 || (n == 2 && from[r][c] == '#') ? '#' : '.';
        }
}

int main(void)
{
    grid g[2] = {{
        {'.', '#', '.', '.', '.', '.', '.', '.', '.', '.'},
        {'.', '.', '#', '.', '.', '.', '#', '.', '.', '.'},
        {'#', '#', '#', '.', '.', '.', '#', '.', '.', '.'},
        {'.', '.', '.', '.', '.', '.', '#', '.', '.', '.'}
    }};
    int turn, r, c, alive = 0;
    for (r = 0; r < ROWS; r++)
        for (c = 0; c < COLUMNS; c++)
            if (g[0][r][c] != '#')
                g[0][r][c] = '.';
    for (turn = 0; turn < 12; turn++)
        step(g[turn & 1], g[!(turn & 1)]);
    for (r = 0; r < ROWS; r++) {
        for (c = 0; c < COLUMNS; c++) {
            putchar(g[0][r][c]);
            alive += g[0][r][c] == '#';
        }
        putchar('\n');
    }
    return alive;
}
