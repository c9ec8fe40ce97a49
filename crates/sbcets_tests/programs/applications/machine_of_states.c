#include <stdio.h>
#include <string.h>

/* counts in a C text by a machine whose states are functions that give the next one */
struct counts {
    int code, comments, strings, lines;
};

struct state;
typedef const struct state *transition(struct counts *, int);

struct state {
    const char *name;
    transition *next;
};

static const struct state code, slash, comment, star, line, text, escape;

static const struct state *in_code(struct counts *n, int c)
{
    if (c == '"')
        return &text;
    if (c == '/')
        return &slash;
    n->code += c != ' ' && c != '\n';
    return &code;
}

static const struct state *in_slash(struct counts *n, int c)
{
    switch (c) {
    case '*': return &comment;
    case '/': return &line;
    }
    n->code++;
    return in_code(n, c);
}

static const struct state *in_comment(struct counts *n, int c)
{
    n->comments++;
    return c == '*' ? &star : &comment;
}

static const struct state *in_star(struct counts *n, int c)
{
    if (c == '/') {
        n->comments--;
        return &code;
    }
    return in_comment(n, c);
}

static const struct state *in_line(struct counts *n, int c)
{
    n->comments += c != '\n';
    return c == '\n' ? &code : &line;
}

static const struct state *in_text(struct counts *n, int c)
{
    if (c == '"')
        return &code;
    n->strings++;
    return c == '\\' ? &escape : &text;
}

static const struct state *in_escape(struct counts *n, int c)
{
    n->strings += c != 0;
    return &text;
}

static const struct state code = {"code", in_code}, slash = {"slash", in_slash}, comment = {"comment", in_comment};
static const struct state star = {"star", in_star}, line = {"line", in_line}, text = {"text", in_text};
static const struct state escape = {"escape", in_escape};

int main(void)
{
    struct counts n = {0, 0, 0, 0};
    const struct state *s = &code;
    int c, changes = 0;
    while ((c = getchar()) != EOF) {
        const struct state *next = s->next(&n, c);
        changes += next != s;
        s = next;
        n.lines += c == '\n';
    }
    printf("%d %d %d %d %s\n", n.code, n.comments, n.strings, n.lines, s->name);
    return changes;
}
