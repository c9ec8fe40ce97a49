#include <stdio.h>

void number(long n)
{
    if (n < 0) {
        putchar('-');
        n = -n;
    }
    if (n > 9)
        number(n / 10);
    putchar('0' + n % 10);
}
void line(long n)
{
    number(n);
    putchar('\n');
}

int last(int people, int step)
{
    int place = 0, n;
    for (n = 2; n <= people; n++)
        place = (place + step) % n;
    return place + 1;
}

int main(void)
{
    int people;
    for (people = 1; people < 50; people += 4)
        line(last(people, 3));
    return last(41, 3);
}
