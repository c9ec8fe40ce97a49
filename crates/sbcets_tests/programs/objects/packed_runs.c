#include <stdio.h>

void number(long n)
{
    char digits[24];
    int count = 0;
    if (n < 0) {
        putchar('-');
        n = -n;
    }
    do {
        digits[count++] = '0' + n % 10;
        n /= 10;
    } while (n > 0);
    while (count > 0)
        putchar(digits[--count]);
}
void field(long n, int behind)
{
    number(n);
    putchar(behind);
}
void text(char *s)
{
    while (*s)
        putchar(*s++);
}
int pack(const char *from, unsigned char *to)
{
    unsigned char *start = to;
    while (*from) {
        const char *run = from;
        while (*run == *from && run - from < 9)
            run++;
        *to++ = run - from + '0';
        *to++ = *from;
        from = run;
    }
    *to = 0;
    return to - start;
}

int unpack(const unsigned char *from, char *to, int room)
{
    int n = 0;
    for (; from[0]; from += 2) {
        int times = from[0] - '0';
        while (times-- > 0) {
            if (n + 1 >= room)
                return -1;
            to[n++] = from[1];
        }
    }
    to[n] = 0;
    return n;
}

int main(void)
{
    unsigned char packed[64];
    char open[32];
    int n, m, i;
    n = pack("aaaabbbccd", packed);
    text((char *)packed);
    putchar('\n');
    m = unpack(packed, open, sizeof open);
    text(open);
    putchar('\n');
    field(n, ' ');
    field(m, '\n');
    n = pack("xxxxxxxxxxxxxxxxxxxxxxxxxxxxxxyy", packed);
    for (i = 0; i < n; i++)
        putchar(packed[i]);
    putchar('\n');
    field(unpack(packed, open, sizeof open), ' ');
    field(unpack(packed, open, 31), ' ');
    field(unpack(packed + 2, open, 32), '\n');
    return n;
}
