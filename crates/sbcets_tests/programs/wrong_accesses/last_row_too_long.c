#include <stdio.h>

#define ROWS 3
#define COLUMNS 4

/* only the last row's end is that of the array */
int sum(int m[ROWS][COLUMNS], int row, int to)
{
    int j, s = 0;
    for (j = 0; j < to; j++)
        s += m[row][j];
    return s;
}

int main(void)
{
    int m[ROWS][COLUMNS], i, j;
    for (i = 0; i < ROWS; i++)
        for (j = 0; j < COLUMNS; j++)
            m[i][j] = i;
    putchar('0' + sum(m, 0, COLUMNS));
    putchar('0' + sum(m, 1, COLUMNS + 1));
    putchar('0' + sum(m, 2, COLUMNS + 1));
    return 0;
}
