#include <stdio.h>

#define ROWS 2
#define COLUMNS 5

int main(void)
{
    char m[ROWS][COLUMNS], t[COLUMNS][ROWS];
    int i, j;
    for (i = 0; i < ROWS; i++)
        for (j = 0; j < COLUMNS; j++)
            m[i][j] = 'a' + i * COLUMNS + j;
    for (i = 0; i < COLUMNS; i++)
        for (j = 0; j < ROWS; j++)
            t[i][j] = m[i][j];
    for (i = 0; i < COLUMNS; i++)
        putchar(t[i][0]);
    return 0;
}
