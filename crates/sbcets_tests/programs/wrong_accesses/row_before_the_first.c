#include <stdio.h>

#define N 4

int around(char grid[N][N], int row, int column)
{
    int r, c, count = 0;
    for (r = row - 1; r <= row + 1; r++)
        for (c = column - 1; c <= column + 1; c++)
            if (grid[r][c] == '#')
                count++;
    return count;
}

int main(void)
{
    char grid[N][N] = {{0}};
    grid[1][1] = grid[2][2] = '#';
    if (around(grid, 1, 1) != 2)
        return 1;
    return around(grid, 0, 2);
}
