#include <stdio.h>
#include <string.h>

int main(void)
{
    char line[16] = "user=";
    const char *given = "root";
    strncpy(line + strlen(line), given, sizeof line);
    puts(line);
    return 0;
}
