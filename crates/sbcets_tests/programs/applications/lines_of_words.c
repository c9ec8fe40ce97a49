#include <stdio.h>
#include <stdlib.h>
#include <string.h>

/* an index: a tree of words, each with the list of its lines */
struct place { int line; struct place *next; };

struct word {
    char *letters;
    struct place *first, **last;
    struct word *before, *behind;
};

static struct word *root;

static void note(const char *letters, int line)
{
    struct word **w = &root, *new_word;
    while (*w) {
        int order = strcmp(letters, (*w)->letters);
        if (order == 0)
            break;
        w = order < 0 ? &(*w)->before : &(*w)->behind;
    }
    if (!*w) {
        new_word = malloc(sizeof *new_word);
        new_word->letters = malloc(strlen(letters) + 1);
        strcpy(new_word->letters, letters);
        new_word->first = NULL;
        new_word->last = &new_word->first;
        new_word->before = new_word->behind = NULL;
        *w = new_word;
    }
    if ((*w)->first && (*w)->first->line == line && !(*w)->first->next)
        return;
    {
        struct place *p = malloc(sizeof *p);
        p->line = line;
        p->next = NULL;
        *(*w)->last = p;
        (*w)->last = &p->next;
    }
}

static int shown(struct word *w, int least)
{
    int n;
    struct place *p;
    if (!w)
        return 0;
    n = shown(w->before, least);
    if (w->first->next || strlen(w->letters) >= (size_t)least) {
        printf("%s", w->letters);
        for (p = w->first; p; p = p->next)
            printf("%c%d", p == w->first ? ' ' : ',', p->line);
        puts("");
    }
    n += 1 + shown(w->behind, least);
    while (w->first) {
        p = w->first;
        w->first = p->next;
        free(p);
    }
    free(w->letters);
    free(w);
    return n;
}

int main(void)
{
    char word[20] = "";
    int c, line = 1;
    while ((c = getchar()) != EOF) {
        char letter[2] = {0};
        letter[0] = c | 32;
        if (letter[0] >= 'a' && letter[0] <= 'z') {
            if (strlen(word) < sizeof word - 1)
                strcat(word, letter);
            continue;
        }
        if (word[0] != '\0')
            note(word, line);
        word[0] = '\0';
        if (c == '\n')
            line++;
    }
    return shown(root, 8);
}
