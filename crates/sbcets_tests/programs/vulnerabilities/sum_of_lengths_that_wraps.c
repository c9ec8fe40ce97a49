#include <stdio.h>
#include <stdlib.h>
#include <string.h>

char *joined(const char *a, unsigned short na, const char *b, unsigned short nb)
{
    unsigned short total = na + nb;
    char *s = malloc(total + 1);
    memcpy(s, a, na);
    memcpy(s + na, b, nb);
    s[total] = '\0';
    printf("%u %s\n", total, s);
    return s;
}

int main(void)
{
    static char large[65530];
    free(joined("ab", 2, "cde", 3));
    memset(large, 'x', sizeof large);
    free(joined(large, sizeof large, "0123456789", 10));
    return 0;
}
