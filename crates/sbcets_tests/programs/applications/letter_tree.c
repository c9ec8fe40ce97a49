#include <stdio.h>
#include <stdlib.h>
#include <string.h>

struct trie {
    struct trie *next[26];
    int ends;
};

static struct trie *make(void)
{
    return calloc(1, sizeof(struct trie));
}

static void add(struct trie *t, const char *word)
{
    for (; *word; word++) {
        struct trie **n = &t->next[*word - 'a'];
        if (!*n)
            *n = make();
        t = *n;
    }
    t->ends++;
}

static const struct trie *walk(const struct trie *t, const char *prefix)
{
    while (t && *prefix)
        t = t->next[*prefix++ - 'a'];
    return t;
}

static int size(const struct trie *t)
{
    int n = 1, i;
    for (i = 0; i < 26; i++)
        if (t->next[i])
            n += size(t->next[i]);
    return n;
}

static void list(const struct trie *t, char *word, char *end)
{
    int i;
    if (t->ends) {
        *end = '\0';
        printf("%s%s ", word, t->ends > 1 ? "!" : "");
    }
    for (i = 0; i < 26; i++)
        if (t->next[i]) {
            *end = 'a' + i;
            list(t->next[i], word, end + 1);
        }
}

static int drop(struct trie *t)
{
    int n = 1, i;
    for (i = 0; i < 26; i++)
        if (t->next[i])
            n += drop(t->next[i]);
    free(t);
    return n;
}

int main(void)
{
    static const char *const words[] = {
        "to", "tea", "ted", "ten", "i", "in", "inn", "tea", "tent", "toast", "innate", ""
    };
    struct trie *root = make();
    char room[16] = "te";
    unsigned i;
    for (i = 0; i < sizeof words / sizeof *words; i++)
        add(root, words[i]);
    list(root, room + 8, room + 8);
    puts("");
    list(walk(root, "te"), room, room + strlen("te"));
    printf("\n%d %d\n", size(root), walk(root, "in")->ends);
    printf("%d %d\n", walk(root, "inns") == NULL, walk(root, "innat")->ends);
    return drop(root);
}
