#include <stdio.h>
#include <stdlib.h>
#include <string.h>

/* Knuth, Morris and Pratt: the table of a pattern, and all places where it stands */
struct pattern {
    char *letters;
    int *fails;
    int length;
};

static struct pattern *pattern(const char *letters)
{
    struct pattern *p = malloc(sizeof *p);
    int i, k = 0;
    p->length = (int)strlen(letters);
    p->letters = memcpy(malloc(p->length + 1), letters, p->length + 1);
    p->fails = calloc(p->length + 1, sizeof *p->fails);
    for (i = 1; i < p->length; i++) {
        while (k > 0 && letters[k] != letters[i])
            k = p->fails[k];
        if (letters[k] == letters[i])
            k++;
        p->fails[i + 1] = k;
    }
    return p;
}

static int *places(const struct pattern *p, const char *text, int *count)
{
    int *at = NULL, k = 0, i;
    *count = 0;
    for (i = 0; text[i]; i++) {
        while (k > 0 && p->letters[k] != text[i])
            k = p->fails[k];
        if (p->letters[k] == text[i])
            k++;
        if (k == p->length) {
            at = realloc(at, (*count + 1) * sizeof *at);
            at[(*count)++] = i + 1 - k;
            k = p->fails[k];
        }
    }
    return at;
}

static void drop(struct pattern *p)
{
    free(p->fails);
    free(p->letters);
    free(p);
}

int main(void)
{
    static const char *const rows[][2] = {
        {"aabaabaaa", "aabaabaabaaaabaabaaa"}, {"abab", "abababab"}, {"zz", "abc"}, {"x", "xxx"}
    };
    int i, k, count, total = 0;
    for (i = 0; i < 4; i++) {
        struct pattern *p = pattern(rows[i][0]);
        int *at = places(p, rows[i][1], &count);
        for (k = 1; k <= p->length; k++)
            printf("%d", p->fails[k]);
        printf(":");
        for (k = 0; k < count; k++)
            printf(" %d", at[k]);
        puts("");
        total += count;
        free(at);
        drop(p);
    }
    return total;
}
