#include <stdio.h>

static const char *const names[] = {"zero", "one", "two", "three", "four", "five"};

void text(const char *s)
{
    while (*s)
        putchar(*s++);
}

int main(void)
{
    int c;
    while ((c = getchar()) != EOF)
        if (c >= '0' && c <= '9')
            text(names[c - '0']);
    return 0;
}
