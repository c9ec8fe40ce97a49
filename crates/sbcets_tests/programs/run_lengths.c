#include <stdio.h>

void number(long n)
{
    if (n < 0) {
        putchar('-');
        n = -n;
    }
    if (n > 9)
        number(n / 10);
    putchar('0' + n % 10);
}

void put_run(int c, int length)
{
    if (length > 3) {
        number(length);
        putchar('*');
        putchar(c);
        return;
    }
    while (length-- > 0)
        putchar(c);
}

int main(void)
{
    int c, before = -1, length = 0;
    do {
        c = getchar();
        if (c == before)
            length++;
        else {
            put_run(before, length);
            before = c;
            length = 1;
        }
    } while (c != EOF);
    putchar('\n');
    return 0;
}
