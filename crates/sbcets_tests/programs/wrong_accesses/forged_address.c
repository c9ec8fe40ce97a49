#include <stdio.h>

static int secret[4] = {41, 42, 43, 44};

int main(void)
{
    unsigned long address = 0x10000000;
    int *p = (int *)address;
    if (p == 0)
        return 1;
    return *p + secret[0];
}
