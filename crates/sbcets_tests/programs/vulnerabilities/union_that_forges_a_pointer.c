#include <stdio.h>

union word { long number; int *pointer; };

static int secret[2] = {5, 6};

int main(void)
{
    union word w;
    long address;
    w.pointer = &secret[0];
    printf("%d\n", *w.pointer);
    address = w.number;
    {
        union word forged = {0};
        forged.number = address + 4;
        printf("%d\n", *forged.pointer);
    }
    return 0;
}
