#include <stdio.h>

int main(void)
{
    char a[16], b[16];
    long distance;
    b[0] = 'b';
    a[0] = 'a';
    distance = b - a;
    *(a + distance) = 'c';
    return b[0];
}
