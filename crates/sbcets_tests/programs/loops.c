#include <stdio.h>

void number(long n)
{
    if (n < 0) {
        putchar('-');
        n = -n;
    }
    if (n > 9)
        number(n / 10);
    putchar('0' + n % 10);
}
void line(long n)
{
    number(n);
    putchar('\n');
}

int main(void)
{
    int i = 0, j, sum = 0;
    do {
        i++;
        if (i % 3 == 0)
            continue;
        if (i > 14)
            break;
        for (j = i; ; j -= 2) {
            if (j < 0)
                break;
            if (j == 5)
                continue;
            sum += j;
            while (j > 8) {
                j--;
                if (j % 2)
                    break;
            }
        }
        line(sum);
    } while (i < 20);
    for (;;) {
        if (sum-- % 17 == 0)
            break;
    }
    line(sum);
    while (i)
        i /= 2;
    return sum + i;
}
