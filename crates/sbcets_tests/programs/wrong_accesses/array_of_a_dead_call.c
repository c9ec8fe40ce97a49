#include <stdio.h>

char *digits(int n)
{
    char buffer[12], *p = buffer + 11;
    *p = 0;
    do
        *--p = '0' + n % 10;
    while ((n /= 10) > 0);
    return p;
}

void text(const char *s)
{
    while (*s)
        putchar(*s++);
}

int main(void)
{
    text(digits(1207));
    return 0;
}
