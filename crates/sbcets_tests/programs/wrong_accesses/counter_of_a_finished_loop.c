#include <stdio.h>

int main(void)
{
    int *last = NULL;
    for (int i = 0; i < 3; i++) {
        last = &i;
        putchar('0' + *last);
    }
    return *last;
}
