#include <stdio.h>
#include <stdlib.h>
#include <string.h>

/* sums columns of lines with commas; a field in quotes may hold commas */
struct line {
    char *fields[6];
    int count;
};

static char *read_line(void)
{
    size_t n = 0, room = 4;
    char *s = malloc(room);
    int c;
    while ((c = getchar()) != EOF && c != '\n') {
        if (n + 1 == room) {
            char *larger = malloc(room *= 2);
            memcpy(larger, s, n);
            free(s);
            s = larger;
        }
        s[n++] = c;
    }
    if (c == EOF && n == 0) {
        free(s);
        return NULL;
    }
    s[n] = '\0';
    return s;
}

static void part(char *s, struct line *l)
{
    l->count = 0;
    for (;;) {
        char *end;
        if (*s == '"') {
            s++;
            end = strchr(s, '"');
            *end++ = '\0';
        } else
            end = strchr(s, ',');
        l->fields[l->count++] = s;
        if (!end || !*end || l->count == 6)
            return;
        *end = '\0';
        s = end + 1;
    }
}

static int number(const char *s, long *to)
{
    long sign = *s == '-' ? -1 : 1, n = 0;
    if (*s == '-')
        s++;
    if (!*s)
        return 0;
    for (; *s; s++)
        if (*s >= '0' && *s <= '9')
            n = 10 * n + (*s - '0');
        else
            return 0;
    *to = sign * n;
    return 1;
}

int main(void)
{
    long sums[6] = {0}, value;
    int numbers[6] = {0}, lines = 0, columns = 0, i;
    char *s, *longest = NULL;
    while ((s = read_line()) != NULL) {
        struct line l;
        lines++;
        part(s, &l);
        for (i = 0; i < l.count; i++) {
            if (number(l.fields[i], &value)) {
                sums[i] += value;
                numbers[i]++;
            } else if (longest == NULL || strlen(l.fields[i]) > strlen(longest)) {
                free(longest);
                longest = malloc(strlen(l.fields[i]) + 1);
                strcpy(longest, l.fields[i]);
            }
        }
        if (l.count > columns)
            columns = l.count;
        free(s);
    }
    for (i = 0; i < columns; i++)
        printf("%ld/%d%s", sums[i], numbers[i], i + 1 < columns ? " " : "\n");
    printf("%s\n", longest);
    free(longest);
    return lines;
}
