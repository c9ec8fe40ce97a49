#include <stdio.h>

void text(const char *s)
{
    int i;
    for (i = 0; s[i] != '\0'; i++)
        putchar(s[i]);
}
static char *names[] = {
    "mercury", "venus", "earth", "mars", "jupiter", "saturn",
    "uranus", "neptune", "pluto", "ceres", "eris", NULL
};

int before(const char *a, const char *b)
{
    for (; *a == *b; a++, b++)
        if (*a == 0)
            return 0;
    return *a < *b;
}

int length(const char *s)
{
    return *s ? 1 + length(s + 1) : 0;
}

/* two orders of the same texts, and none of the texts is moved */
int main(void)
{
    char **by_name[12], **by_length[12];
    char ***p;
    int n, i, j, same = 0;
    for (n = 0; names[n]; n++)
        by_name[n] = by_length[n] = &names[n];
    for (i = 1; i < n; i++)
        for (j = i; j > 0 && before(*by_name[j], *by_name[j - 1]); j--) {
            char **t = by_name[j];
            by_name[j] = by_name[j - 1];
            by_name[j - 1] = t;
        }
    for (i = 1; i < n; i++)
        for (j = i; j > 0 && length(*by_length[j]) > length(*by_length[j - 1]); j--) {
            char **t = by_length[j];
            by_length[j] = by_length[j - 1];
            by_length[j - 1] = t;
        }
    for (p = by_name; p < by_name + n; p++) {
        text(**p);
        putchar(p < by_name + n - 1 ? ' ' : '\n');
    }
    for (p = &by_length[0]; p < &by_length[n]; p++) {
        putchar('a' + (*p - names));
        same += *p == by_name[p - by_length];
    }
    putchar('\n');
    return same * 16 + n;
}
