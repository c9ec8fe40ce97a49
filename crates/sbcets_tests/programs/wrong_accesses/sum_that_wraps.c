#include <stdio.h>

static char keys[8] = "keys";

char at(unsigned long offset)
{
    return *(keys + offset);
}

int main(void)
{
    putchar(at(8 - 8));
    putchar(at(0ul - 0x10000000));
    return 0;
}
