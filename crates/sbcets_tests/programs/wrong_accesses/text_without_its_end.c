#include <stdio.h>

char short_text[4] = "abc";
char full_text[3] = "123";

void text(const char *s)
{
    while (*s != '\0') {
        putchar(*s);
        s++;
    }
}

int main(void)
{
    text(short_text);
    putchar(' ');
    text(full_text);
    putchar('\n');
    return 0;
}
