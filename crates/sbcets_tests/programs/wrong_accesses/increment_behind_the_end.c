#include <stdio.h>

static unsigned counts[26];

int main(void)
{
    int c, i;
    while ((c = getchar()) != '\n')
        if (c >= 'a')
            counts[c - 'a']++;
    for (i = 0; i < 26; i++)
        putchar('0' + counts[i]);
    return 0;
}
