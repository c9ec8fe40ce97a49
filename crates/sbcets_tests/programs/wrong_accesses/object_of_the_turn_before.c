#include <stdio.h>

int main(void)
{
    char *before = 0;
    int i;
    for (i = 0; i < 3; i++) {
        char here[2];
        here[0] = 'a' + i;
        if (before)
            here[1] = *before;
        before = here;
        putchar(here[0]);
    }
    return 0;
}
