#include <stdio.h>

void number(long n)
{
    if (n < 0) {
        putchar('-');
        n = -n;
    }
    if (n > 9)
        number(n / 10);
    putchar('0' + n % 10);
}
void line(long n)
{
    number(n);
    putchar('\n');
}

int weight(int item)
{
    return item * item % 11 + 2;
}

int worth(int item)
{
    return item * 7 % 13 + 1;
}

int best(int item, int room)
{
    int without, with;
    if (item == 0)
        return 0;
    without = best(item - 1, room);
    if (weight(item) > room)
        return without;
    with = worth(item) + best(item - 1, room - weight(item));
    return with > without ? with : without;
}

int main(void)
{
    int room;
    for (room = 0; room < 40; room += 5)
        line(best(9, room));
    return best(9, 100);
}
