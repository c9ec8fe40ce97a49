#include <stdlib.h>
#include <string.h>
#include <stdio.h>

char *copied(const char *s)
{
    char *c = malloc(strlen(s));
    if (c)
        strcpy(c, s);
    return c;
}

int main(void)
{
    char *c = copied("sixteen bytes...");
    puts(c);
    free(c);
    return 0;
}
