#include <stdlib.h>
#include <stdio.h>

char **table(int rows, int columns)
{
    char **t = malloc(rows * sizeof(char));
    int i;
    for (i = 0; i < rows; i++)
        t[i] = calloc(columns, 1);
    return t;
}

int main(void)
{
    char **t = table(12, 3);
    t[11][2] = 'x';
    putchar(t[11][2]);
    return 0;
}
