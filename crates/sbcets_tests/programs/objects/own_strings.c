#include <stdio.h>

void number(long n)
{
    char digits[24];
    int count = 0;
    if (n < 0) {
        putchar('-');
        n = -n;
    }
    do {
        digits[count++] = '0' + n % 10;
        n /= 10;
    } while (n > 0);
    while (count > 0)
        putchar(digits[--count]);
}
void field(long n, int behind)
{
    number(n);
    putchar(behind);
}
void text(char *s)
{
    while (*s)
        putchar(*s++);
}
int length(const char *s)
{
    const char *p = s;
    while (*p)
        p++;
    return p - s;
}

int compare(const char *a, const char *b)
{
    while (*a && *a == *b) {
        a++;
        b++;
    }
    return *a - *b;
}

char *append(char *to, const char *from)
{
    char *p = to + length(to);
    while ((*p++ = *from++))
        ;
    return to;
}

char *find(char *in, char *what)
{
    char *p, *q, *r;
    for (p = in; *p; p++) {
        for (q = p, r = what; *r && *q == *r; q++, r++)
            ;
        if (!*r)
            return p;
    }
    return *what ? 0 : in;
}

void reverse(char *s)
{
    char *e = s + length(s) - 1;
    while (s < e) {
        char c = *s;
        *s++ = *e;
        *e-- = c;
    }
}

int main(void)
{
    char buffer[40] = "the quick";
    char *at;
    field(length(buffer), '\n');
    append(append(buffer, " brown"), " fox");
    text(buffer);
    putchar('\n');
    at = find(buffer, "brown");
    field(at ? at - buffer : -1, ' ');
    field(find(buffer, "red") == 0, ' ');
    field(find(buffer, "") - buffer, '\n');
    reverse(at);
    text(buffer);
    putchar('\n');
    reverse(buffer);
    text(buffer);
    putchar('\n');
    field(compare("abc", "abd") < 0, ' ');
    field(compare("abc", "ab") > 0, ' ');
    field(compare("", ""), ' ');
    field(compare("\200", "\177") > 0, '\n');
    return length(buffer);
}
