#include <stdio.h>

void number(long n)
{
    if (n < 0) {
        putchar('-');
        n = -n;
    }
    if (n > 9)
        number(n / 10);
    putchar('0' + n % 10);
}
void line(long n)
{
    number(n);
    putchar('\n');
}

int move(int disks, int from, int to, int over)
{
    int moves;
    if (disks == 0)
        return 0;
    moves = move(disks - 1, from, over, to);
    putchar(from);
    putchar(to);
    putchar(disks % 2 ? '\n' : ' ');
    return moves + 1 + move(disks - 1, over, to, from);
}

int main(void)
{
    int n = move(6, 'A', 'C', 'B');
    putchar('\n');
    line(n);
    return n;
}
