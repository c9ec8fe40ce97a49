#include <stdio.h>

static short row[6];

void fill(short *from, short *last, short with)
{
    while (from <= last)
        *from++ = with;
}

int main(void)
{
    fill(row, row + 5, 3);
    putchar('.');
    fill(row, row + 6, 4);
    putchar('.');
    return row[5];
}
