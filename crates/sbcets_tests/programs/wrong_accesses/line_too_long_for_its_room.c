#include <stdio.h>

int read_line(char *to)
{
    int c, n = 0;
    while ((c = getchar()) != EOF && c != '\n')
        to[n++] = c;
    to[n] = 0;
    return n;
}

int main(void)
{
    char line[8];
    int n, i;
    while ((n = read_line(line)) > 0)
        for (i = 0; i < n; i++)
            putchar(line[i]);
    return 0;
}
