#include <stdio.h>
#include <stdlib.h>

int main(void)
{
    char *start = malloc(4), *p = start;
    *p++ = 'a';
    *p++ = 'b';
    printf("%c%c", start[0], start[1]);
    p = realloc(p, 16);
    *p = 'c';
    free(start);
    return 0;
}
