#include <stdio.h>

static int granted(void)
{
    puts("granted");
    return 1;
}

int main(void)
{
    unsigned long address = (unsigned long)granted;
    int (*f)(void) = (int (*)(void))address;
    if (address == 0)
        return 1;
    return f();
}
