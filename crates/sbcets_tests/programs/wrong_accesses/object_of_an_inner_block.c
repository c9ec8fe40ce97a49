#include <stdio.h>

int main(void)
{
    int *p = 0;
    int n = 2;
    if (n > 1) {
        int inner[2] = {'i', 'n'};
        p = inner;
        putchar(p[0]);
        putchar(p[1]);
    }
    putchar(p[1]);
    return 0;
}
