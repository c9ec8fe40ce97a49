#include <stdio.h>

int main(void)
{
    long *kept = 0;
    int turn = 0;
    while (turn < 3) {
        long value = turn * 10;
        turn++;
        if (turn == 1) {
            kept = &value;
            putchar('0' + turn);
            continue;
        }
        value += *kept;
        kept = &value;
    }
    return 0;
}
