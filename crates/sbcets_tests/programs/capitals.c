#include <stdio.h>


int is_letter(int c)
{
    return (c >= 'a' && c <= 'z') || (c >= 'A' && c <= 'Z');
}

int upper(int c)
{
    return c >= 'a' && c <= 'z' ? c - 32 : c;
}

int lower(int c)
{
    return c >= 'A' && c <= 'Z' ? c + 32 : c;
}

int main(void)
{
    int c, before = ' ', count = 0;
    for (; (c = getchar()) != EOF; before = c)
        if (is_letter(c) && !is_letter(before)) {
            putchar(upper(c));
            ++count;
        } else
            putchar(lower(c));
    return count;
}
