#include <stdio.h>


typedef unsigned long board;

int is_alive(board b, int row, int column)
{
    return b >> ((row & 7) * 8 + (column & 7)) & 1;
}

board next(board b)
{
    board after = 0;
    int row, column;
    for (row = 0; row < 8; row++)
        for (column = 0; column < 8; column++) {
            int r, c, count = 0;
            for (r = -1; r <= 1; r++)
                for (c = -1; c <= 1; c++)
                    if (r != 0 || c != 0)
                        count += is_alive(b, row + r, column + c);
            if (count == 3 || (count == 2 && is_alive(b, row, column)))
                after |= 1UL << (row * 8 + column);
        }
    return after;
}

void show(board b)
{
    int i;
    for (i = 0; i < 64; i++) {
        putchar(b >> i & 1 ? 'o' : '.');
        if (i % 8 == 7)
            putchar('\n');
    }
}

int main(void)
{
    board b = 0x0000000000070402UL;
    int i;
    for (i = 0; i < 5; i++) {
        show(b);
        putchar('\n');
        b = next(b);
    }
    return 0;
}
