#include <stdio.h>
#include <string.h>

const char *greeting(const char *name)
{
    char line[32] = "hello ";
    const char *result = line;
    strcat(line, name);
    return result;
}

int main(void)
{
    const char *line = greeting("world");
    puts(line);
    return 0;
}
