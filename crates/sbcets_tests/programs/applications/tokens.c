#include <stdio.h>
#include <stdlib.h>
#include <string.h>

enum kind { NAME, NUMBER, WORD, TEXT, SIGN, COUNT };

struct token {
    enum kind kind;
    int line;
    char *text;
    struct token *next;
};

static const char *const words[] = {"if", "else", "while", "return", "int", NULL};
static const char *const names[COUNT] = {"name", "number", "word", "text", "sign"};

static int is_letter(int c)
{
    return (c >= 'a' && c <= 'z') || (c >= 'A' && c <= 'Z') || c == '_';
}

static int is_digit(int c)
{
    return c >= '0' && c <= '9';
}

static int is_word(const char *s)
{
    const char *const *w;
    for (w = words; *w; w++)
        if (strcmp(*w, s) == 0)
            return 1;
    return 0;
}

struct token *token(enum kind kind, int line, const char *from, const char *to)
{
    struct token *t = malloc(sizeof(struct token));
    t->kind = kind;
    t->line = line;
    t->text = malloc(to - from + 1);
    memcpy(t->text, from, to - from);
    t->text[to - from] = '\0';
    if (kind == NAME && is_word(t->text))
        t->kind = WORD;
    t->next = NULL;
    return t;
}

struct token *tokens(const char *s)
{
    struct token *first = NULL, **last = &first;
    int line = 1;
    while (*s) {
        const char *start = s;
        enum kind kind = SIGN;
        if (*s == '\n')
            line++;
        if (strchr(" \t\n", *s)) {
            s++;
            continue;
        }
        if (is_letter(*s)) {
            kind = NAME;
            while (is_letter(*s) || is_digit(*s))
                s++;
        } else if (is_digit(*s)) {
            kind = NUMBER;
            while (is_digit(*s))
                s++;
        } else if (*s == '"') {
            kind = TEXT;
            do
                s += *s == '\\' ? 2 : 1;
            while (*s != '"');
            s++;
        } else {
            s++;
            if (*s == '=' && strchr("=<>!", *start))
                s++;
        }
        *last = token(kind, line, start, s);
        last = &(*last)->next;
    }
    return first;
}

int main(void)
{
    struct token *t = tokens("int f(int x)\n{\n\tif (x1 >= 10) return \"a\\\"b\";\n"
                             "  while (x!=_y) x=x*2;\n}\n");
    int counts[COUNT] = {0}, i;
    while (t) {
        struct token *next = t->next;
        counts[t->kind]++;
        if (t->line % 2)
            printf("%s ", t->text);
        else
            printf("<%s>", t->text);
        free(t->text);
        free(t);
        t = next;
    }
    puts("");
    for (i = 0; i < COUNT; i++)
        printf("%s %d\n", names[i], counts[i]);
    return 0;
}
