#include <stdio.h>
#include <string.h>

static char out[16];

void body(const char *line, int length)
{
    int n = length - 2;
    if (n > (int)sizeof out - 1)
        n = sizeof out - 1;
    memcpy(out, line + 2, n);
    out[n] = '\0';
    puts(out);
}

int main(void)
{
    body("x:abc", 5);
    body("x", 1);
    return 0;
}
