#include <stdio.h>

/* structures by value: the last is read one place too far */
struct pair { int a, b; };

int main(void)
{
    struct pair pairs[2] = {{1, 0}, {2, 0}}, p, *at = pairs;
    int i;
    for (i = 0; i < 3; i++, at++) {
        p = *at;
        putchar('0' + p.a);
    }
    return 0;
}
