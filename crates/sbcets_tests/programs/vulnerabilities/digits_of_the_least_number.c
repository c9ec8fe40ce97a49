#include <stdio.h>
#include <string.h>

void show(int n)
{
    char digits[11], *p = digits + sizeof digits;
    unsigned u = n < 0 ? 0u - (unsigned)n : (unsigned)n;
    *--p = '\0';
    do
        *--p = '0' + u % 10;
    while ((u /= 10) != 0);
    if (n < 0)
        *--p = '-';
    printf("%s ", p);
}

int main(void)
{
    show(12345);
    show(-1);
    show(-2147483647 - 1);
    return 0;
}
