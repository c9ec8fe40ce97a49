#include <stdio.h>
#include <stdlib.h>
#include <string.h>

struct text { int holders; char letters[12]; };

struct text *make(const char *s)
{
    struct text *t = malloc(sizeof *t);
    t->holders = 1;
    strcpy(t->letters, s);
    return t;
}

void let_go(struct text *t)
{
    if (--t->holders == 0)
        free(t);
}

int main(void)
{
    struct text *a = make("shared"), *b = a;
    puts(b->letters);
    let_go(a);
    puts(b->letters);
    let_go(b);
    return 0;
}
