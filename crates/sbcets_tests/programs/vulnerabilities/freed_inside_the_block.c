#include <stdio.h>
#include <stdlib.h>
#include <string.h>

int main(void)
{
    char *line = malloc(16);
    strcpy(line, "  spaces");
    while (*line == ' ')
        line++;
    puts(line);
    free(line);
    return 0;
}
