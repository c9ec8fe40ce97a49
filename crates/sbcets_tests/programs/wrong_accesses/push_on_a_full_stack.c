#include <stdio.h>

#define DEPTH 8

static int depth;
static const char *stack[DEPTH];

void push(const char *p)
{
    const char **top = stack + depth++;
    *top = p;
}

void nested(const char *text)
{
    for (; *text; text++) {
        if (*text == '(')
            push(text);
        else if (*text == ')')
            depth--;
        else
            putchar(*text);
    }
}

int main(void)
{
    nested("((((((((aaaa))))))))");
    nested("((((((((aaaa(b)))))))))");
    return depth;
}
