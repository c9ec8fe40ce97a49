#include <stdio.h>

static char outer[] = "a";

int main(void)
{
    char *chosen, *dead;
    int i;
    {
        char inner[] = "b";
        dead = inner;
        for (i = 0; i < 2; i++) {
            chosen = i ? dead : outer;
            putchar(*chosen);
        }
    }
    for (i = 0; i < 2; i++) {
        chosen = i ? outer : dead;
        putchar(*chosen);
    }
    return 0;
}
