#include <stdio.h>
#include <stdlib.h>
#include <string.h>

/* a text out of the pairs of words of another, with numbers of its own */
struct follower { struct word *word; unsigned count; struct follower *next; };

struct word {
    char *letters;
    struct follower *followers;
    unsigned total;
    struct word *next;
};

static struct word *words;

static struct word *word(const char *start, size_t n)
{
    struct word *w;
    for (w = words; w; w = w->next)
        if (strlen(w->letters) == n && memcmp(w->letters, start, n) == 0)
            return w;
    w = malloc(sizeof *w);
    w->letters = malloc(n + 1);
    memcpy(w->letters, start, n);
    w->letters[n] = '\0';
    w->followers = NULL;
    w->total = 0;
    w->next = words;
    return words = w;
}

static void note(struct word *w, struct word *then)
{
    struct follower **f = &w->followers;
    while (*f && (*f)->word != then)
        f = &(*f)->next;
    if (!*f) {
        *f = calloc(1, sizeof **f);
        (*f)->word = then;
    }
    (*f)->count++;
    w->total++;
}

static struct word *chosen(const struct word *w, unsigned number)
{
    const struct follower *f;
    number %= w->total;
    for (f = w->followers; number >= f->count; f = f->next)
        number -= f->count;
    return f->word;
}

int main(void)
{
    static const char text[] =
        "the cat saw the dog and the dog saw the cat and the cat ran to the house and the dog ran to the cat";
    const char *p = text;
    struct word *before = NULL, *w;
    unsigned seed = 12, i, most = 0;
    for (;;) {
        const char *end = strchr(p, ' ');
        w = word(p, end ? (size_t)(end - p) : strlen(p));
        if (before)
            note(before, w);
        before = w;
        if (!end)
            break;
        p = end + 1;
    }
    w = word("the", 3);
    note(before, w);
    for (i = 0; i < 16; i++) {
        printf("%s ", w->letters);
        seed = seed * 1664525 + 1013904223;
        w = chosen(w, seed >> 16);
    }
    puts("");
    while (words) {
        struct word *gone = words;
        words = gone->next;
        most = gone->total > most ? gone->total : most;
        while (gone->followers) {
            struct follower *f = gone->followers;
            gone->followers = f->next;
            free(f);
        }
        free(gone->letters);
        free(gone);
    }
    return (int)most;
}
