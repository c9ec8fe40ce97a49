#include <stdio.h>
#include <stdlib.h>
#include <string.h>

char *room_for(char *small, size_t n)
{
    return n <= 16 ? small : malloc(n);
}

int main(void)
{
    char small[16], *s;
    const char *text = "on the stack";
    s = room_for(small, strlen(text) + 1);
    strcpy(s, text);
    puts(s);
    free(s);
    return 0;
}
