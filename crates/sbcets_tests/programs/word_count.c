#include <stdio.h>

void number(long n)
{
    if (n < 0) {
        putchar('-');
        n = -n;
    }
    if (n > 9)
        number(n / 10);
    putchar('0' + n % 10);
}

int main(void)
{
    int c, lines = 0, words = 0, bytes = 0, is_inside = 0;
    while ((c = getchar()) != EOF) {
        bytes++;
        if (c == '\n')
            lines++;
        if (c == ' ' || c == '\n' || c == '\t')
            is_inside = 0;
        else if (!is_inside) {
            is_inside = 1;
            words++;
        }
    }
    number(lines);
    putchar(' ');
    number(words);
    putchar(' ');
    number(bytes);
    putchar('\n');
    return 0;
}
