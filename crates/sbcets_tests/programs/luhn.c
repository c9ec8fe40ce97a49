#include <stdio.h>

void number(long n)
{
    if (n < 0) {
        putchar('-');
        n = -n;
    }
    if (n > 9)
        number(n / 10);
    putchar('0' + n % 10);
}

int main(void)
{
    int c, odd = 0, even = 0, digits = 0, doubled;
    while ((c = getchar()) != EOF) {
        if (c == '\n') {
            number(digits % 2 ? odd : even);
            putchar((digits % 2 ? odd : even) % 10 == 0 ? '+' : '-');
            putchar('\n');
            odd = even = digits = 0;
            continue;
        }
        c -= '0';
        doubled = c * 2 > 9 ? c * 2 - 9 : c * 2;
        if (digits++ % 2) {
            odd += doubled;
            even += c;
        } else {
            odd += c;
            even += doubled;
        }
    }
    return 0;
}
