#include <stdio.h>


int depth(long a, long b)
{
    long x = 0, y = 0;
    int n;
    for (n = 0; n < 30; n++) {
        long xx = x * x >> 16, yy = y * y >> 16;
        if (xx + yy > 4L << 16)
            break;
        y = (x * y >> 15) + b;
        x = xx - yy + a;
    }
    return n;
}

int main(void)
{
    int row, column;
    for (row = -8; row <= 8; row++) {
        for (column = -26; column <= 12; column++) {
            int d = depth(column * 65536L / 13, row * 65536L / 7);
            putchar(d == 30 ? '#' : d > 8 ? '+' : d > 4 ? '.' : ' ');
        }
        putchar('\n');
    }
    return 0;
}
