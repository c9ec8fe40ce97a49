#include <stdio.h>
#include <stdlib.h>
#include <string.h>

void unpack(const char *from, char *to)
{
    for (; *from; from += 2) {
        int times = from[0] - '0';
        memset(to, from[1], times);
        to += times;
    }
    *to = '\0';
}

int main(void)
{
    char *row = malloc(8);
    unpack("3a1b", row);
    puts(row);
    unpack("3a6b", row);
    puts(row);
    free(row);
    return 0;
}
