#include <stdio.h>
#include <stdlib.h>
#include <string.h>

/* the longest part of a text that stands in it twice, by its sorted suffixes */
static const char **sorted_suffixes(const char *text, int n)
{
    const char **s = malloc(n * sizeof(char *));
    int i, gap;
    for (i = 0; i < n; i++)
        s[i] = &text[i];
    for (gap = n / 2; gap; gap /= 2)
        for (i = gap; i < n; i++) {
            const char *held = s[i];
            int j = i;
            while (j >= gap && strcmp(s[j - gap], held) > 0) {
                s[j] = s[j - gap];
                j -= gap;
            }
            s[j] = held;
        }
    return s;
}

static int common(const char *a, const char *b)
{
    int n = 0;
    while (a[n] && a[n] == b[n])
        n++;
    return n;
}

static int count(const char **s, int n, const char *part)
{
    size_t length = strlen(part);
    int low = 0, high = n, found = 0;
    while (low < high) {
        int middle = (low + high) / 2;
        if (strcmp(s[middle], part) < 0)
            low = middle + 1;
        else
            high = middle;
    }
    while (low < n && strlen(s[low]) >= length && memcmp(s[low], part, length) == 0) {
        low++;
        found++;
    }
    return found;
}

int main(void)
{
    static const char text[] =
        "it was the best of times it was the worst of times it was the age of wisdom it was the age of foolishness";
    int n = (int)sizeof text - 1, i, best = 0, at = 0;
    const char **s = sorted_suffixes(text, n);
    char *part;
    for (i = 1; i < n; i++)
        if (common(s[i - 1], s[i]) > best) {
            best = common(s[i - 1], s[i]);
            at = i;
        }
    part = malloc(best + 1);
    strncpy(part, s[at], best);
    part[best] = '\0';
    printf("'%s' at %d\n", part, (int)(s[at] - text));
    printf("%d %d %d %d\n", count(s, n, "it was"), count(s, n, "of"), count(s, n, "e"), count(s, n, "xyz"));
    printf("%s\n", s[n - 1]);
    free(part);
    free(s);
    return best;
}
