#include <stdio.h>


int shift(unsigned int key, int at)
{
    while (at-- > 0)
        key = key / 26 + key % 26 * 26;
    return key % 26;
}

int main(void)
{
    int c, at = 0;
    while ((c = getchar()) != EOF) {
        if (c >= 'A' && c <= 'Z') {
            putchar((c - 'A' + shift(407, at)) % 26 + 'A');
            at = (at + 1) % 5;
        } else
            putchar(c);
    }
    return at;
}
