#include <stdio.h>


int main(void)
{
    int row, column;
    for (row = 0; row < 8; row++) {
        for (column = 0; column < 8; column++)
            putchar((row + column) % 2 ? '#' : (row * column) % 5 == 4 ? 'o' : '.');
        putchar('\n');
    }
    return row * column;
}
