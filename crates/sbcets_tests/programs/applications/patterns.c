#include <stdio.h>
#include <stdlib.h>
#include <string.h>

/* texts against patterns: . any, [abc] and [^abc] sets, * many, + one or more, ? none or one, ^ and $ */
struct step {
    char kind, times;
    char *set;
    struct step *next;
};

static struct step *compiled(const char *p)
{
    struct step *s;
    if (!*p)
        return NULL;
    s = calloc(1, sizeof *s);
    s->kind = *p == '.' || (*p == '$' && !p[1]) ? *p : 's';
    if (*p == '[') {
        const char *end = strchr(p + 1, ']');
        if (*++p == '^') {
            s->kind = 'n';
            p++;
        }
        s->set = malloc(end - p + 1);
        memcpy(s->set, p, end - p);
        s->set[end - p] = '\0';
        p = end;
    } else if (s->kind == 's') {
        s->set = malloc(2);
        s->set[0] = *p;
        s->set[1] = '\0';
    }
    p++;
    if (*p && strchr("*+?", *p))
        s->times = *p++;
    s->next = compiled(p);
    return s;
}

static int fits(const struct step *s, char c)
{
    if (c == '\0')
        return 0;
    switch (s->kind) {
    case '.': return 1;
    case 's': return strchr(s->set, c) != NULL;
    case 'n': return strchr(s->set, c) == NULL;
    default: return 0;
    }
}

static const char *matched(const struct step *s, const char *text)
{
    const char *end, *far = text;
    if (!s)
        return text;
    if (s->kind == '$')
        return *text ? NULL : text;
    if (!s->times)
        return fits(s, *text) ? matched(s->next, text + 1) : NULL;
    while (fits(s, *far) && (s->times != '?' || far == text))
        far++;
    for (; far >= text + (s->times == '+'); far--)
        if ((end = matched(s->next, far)) != NULL)
            return end;
    return NULL;
}

static void try_pattern(const char *pattern, const char *text)
{
    struct step *all = compiled(*pattern == '^' ? pattern + 1 : pattern), *s;
    const char *from = text, *end = NULL;
    do
        end = matched(all, from);
    while (!end && *pattern != '^' && *from++);
    if (end)
        printf("%d-%d ", (int)(from - text), (int)(end - text));
    else
        printf("no ");
    while ((s = all) != NULL) {
        all = s->next;
        free(s->set);
        free(s);
    }
}

int main(void)
{
    try_pattern("b+", "aabbbc");
    try_pattern("^b+", "aabbbc");
    try_pattern("[0-9]", "a9");
    try_pattern("[xyz]*a", "zyxxa");
    try_pattern("[^ ]+$", "the last word");
    try_pattern("colou?r", "my color");
    puts("");
    try_pattern("a.*c", "xabcabcab");
    try_pattern(".*", "");
    try_pattern("a*a*a*b", "aaaaaa");
    try_pattern("x?$", "yx");
    try_pattern("", "abc");
    puts("");
    return 0;
}
