#include <stdio.h>
#include <stdlib.h>
#include <string.h>

static int digit(char c)
{
    return c <= '9' ? c - '0' : (c | 32) - 'a' + 10;
}

/* texts with %20 for a space: what stands behind a last % is not looked for */
char *decoded(const char *s, size_t n)
{
    char *d = malloc(n + 1), *to = d;
    size_t i;
    for (i = 0; i < n; i++)
        if (s[i] == '%') {
            *to++ = digit(s[i + 1]) * 16 + digit(s[i + 2]);
            i += 2;
        } else
            *to++ = s[i];
    *to = '\0';
    return d;
}

int main(void)
{
    static const char good[5] = "a%20b", bad[4] = "ab%2";
    char *d = decoded(good, 5);
    puts(d);
    free(d);
    d = decoded(bad, 4);
    puts(d);
    return 0;
}
