#include <stdio.h>

void number(long n)
{
    if (n < 0) {
        putchar('-');
        n = -n;
    }
    if (n > 9)
        number(n / 10);
    putchar('0' + n % 10);
}

int next(int n)
{
    int sum = 0;
    while (n > 0) {
        int digit = n % 10;
        sum += digit * digit;
        n /= 10;
    }
    return sum;
}

int is_happy(int n)
{
    int slow = n, fast = n;
    do {
        slow = next(slow);
        fast = next(next(fast));
    } while (slow != fast);
    return slow == 1;
}

int main(void)
{
    int n, count = 0;
    for (n = 1; n < 150; n++)
        if (is_happy(n)) {
            number(n);
            putchar(' ');
            count++;
        }
    putchar('\n');
    return count;
}
