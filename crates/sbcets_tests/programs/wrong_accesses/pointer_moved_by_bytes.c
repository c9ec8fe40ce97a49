#include <stdio.h>

/* the copy of a pointer's bytes is a number, and no pointer */
void copy(char *to, const char *from, int n)
{
    while (n-- > 0)
        *to++ = *from++;
}

int main(void)
{
    char letter = '1', *p = &letter, *q = 0;
    putchar(*p);
    copy((char *)&q, (char *)&p, sizeof p);
    if (q != p)
        return 1;
    putchar(*q);
    return 0;
}
