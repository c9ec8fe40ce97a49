#include <stdio.h>

void text(char *s)
{
    while (*s)
        putchar(*s++);
}
static const char letters[] = "ABCDEFGHIJKLMNOPQRSTUVWXYZabcdefghijklmnopqrstuvwxyz0123456789+/";

void encode(const unsigned char *from, int n, char *to)
{
    while (n > 0) {
        unsigned long group = (unsigned long)from[0] << 16;
        if (n > 1)
            group |= from[1] << 8;
        if (n > 2)
            group |= from[2];
        *to++ = letters[group >> 18];
        *to++ = letters[group >> 12 & 63];
        *to++ = n > 1 ? letters[group >> 6 & 63] : '=';
        *to++ = n > 2 ? letters[group & 63] : '=';
        from += 3;
        n -= 3;
    }
    *to = 0;
}

int value_of(char c)
{
    int i;
    for (i = 0; i < 64; i++)
        if (letters[i] == c)
            return i;
    return 0;
}

int decode(const char *from, unsigned char *to)
{
    int n = 0;
    while (from[0] != 0) {
        int group = 0, i;
        for (i = 0; i < 4; i++)
            group = group * 64 + value_of(from[i]);
        to[n++] = group >> 16;
        if (from[2] != '=')
            to[n++] = group >> 8;
        if (from[3] != '=')
            to[n++] = group;
        from += 4;
    }
    return n;
}

int main(void)
{
    unsigned char line[64], back[64];
    char coded[96];
    int c, n = 0, i;
    for (;;) {
        c = getchar();
        if (c == EOF || c == '\n') {
            encode(line, n, coded);
            text(coded);
            putchar(decode(coded, back) == n ? '\n' : '?');
            for (i = 0; i < n; i++)
                if (back[i] != line[i])
                    return 1;
            n = 0;
            if (c == EOF)
                return value_of('/');
        } else if (n < 64)
            line[n++] = c;
    }
}
