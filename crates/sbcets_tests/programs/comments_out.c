#include <stdio.h>


enum state { TEXT, SLASH, COMMENT, STAR, QUOTED, ESCAPED };

enum state after(enum state s, int c)
{
    switch (s) {
    case TEXT:
        return c == '/' ? SLASH : c == '"' ? QUOTED : TEXT;
    case SLASH:
        if (c == '*')
            return COMMENT;
        putchar('/');
        return c == '/' ? SLASH : TEXT;
    case COMMENT:
        return c == '*' ? STAR : COMMENT;
    case STAR:
        return c == '/' ? TEXT : c == '*' ? STAR : COMMENT;
    case QUOTED:
        return c == '\\' ? ESCAPED : c == '"' ? TEXT : QUOTED;
    case ESCAPED:
        return QUOTED;
    }
    return TEXT;
}

int main(void)
{
    enum state s = TEXT;
    int c;
    while ((c = getchar()) != EOF) {
        enum state next = after(s, c);
        if (next != SLASH && next != COMMENT && next != STAR && !(s == STAR && next == TEXT))
            putchar(c);
        s = next;
    }
    return s;
}
