#include <stdio.h>
#include <stdlib.h>

char *read_name(void)
{
    char *name = malloc(8), *p = name;
    int c;
    puts("name?");
    while ((c = getchar()) != '\n' && c != EOF)
        *p++ = c;
    *p = '\0';
    return name;
}

int main(void)
{
    char *name = read_name();
    printf("hello %s\n", name);
    free(name);
    return 0;
}
