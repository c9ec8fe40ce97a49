#include <stdio.h>
#include <string.h>

static char room[16];

char *part(const char *s, int from, int to)
{
    size_t n = to - from;
    memmove(room, s + from, n);
    room[n] = 0;
    return room;
}

int main(void)
{
    puts(part("abcdef", 1, 4));
    puts(part("abcdef", 4, 1));
    return 0;
}
