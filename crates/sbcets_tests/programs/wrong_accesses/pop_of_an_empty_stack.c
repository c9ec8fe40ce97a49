#include <stdio.h>

struct stack {
    int items[8];
    int top;
};

int pop(struct stack *s)
{
    return s->items[--s->top];
}

void push(struct stack *s, int v)
{
    s->items[s->top++] = v;
}

void subtract(struct stack *s)
{
    int b = pop(s), a = pop(s);
    push(s, a - b);
}

int main(void)
{
    struct stack s = {{0}, 0};
    push(&s, 5);
    push(&s, 3);
    subtract(&s);
    putchar('0' + s.items[0]);
    subtract(&s);
    putchar('0' + s.items[0]);
    return 0;
}
