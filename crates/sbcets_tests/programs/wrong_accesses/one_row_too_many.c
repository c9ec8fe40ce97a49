#include <stdio.h>

static char board[3][3] = {{'x', '.', '.'}, {'.', 'y', '.'}, {'.', '.', 'z'}};

int main(void)
{
    int i;
    for (i = 0; i < 4; i++)
        if (board[i][i] != '.')
            putchar(board[i][i]);
    putchar('\n');
    return 0;
}
