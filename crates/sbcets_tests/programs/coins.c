#include <stdio.h>

void number(long n)
{
    if (n < 0) {
        putchar('-');
        n = -n;
    }
    if (n > 9)
        number(n / 10);
    putchar('0' + n % 10);
}
void line(long n)
{
    number(n);
    putchar('\n');
}

int coin(int kind)
{
    switch (kind) {
    case 1: return 1;
    case 2: return 5;
    case 3: return 10;
    case 4: return 25;
    default: return 50;
    }
}

long ways(int amount, int kinds)
{
    if (amount == 0)
        return 1;
    if (amount < 0 || kinds == 0)
        return 0;
    return ways(amount, kinds - 1) + ways(amount - coin(kinds), kinds);
}

int main(void)
{
    int amount;
    for (amount = 5; amount <= 80; amount += 15)
        line(ways(amount, 5));
    return ways(50, 5);
}
