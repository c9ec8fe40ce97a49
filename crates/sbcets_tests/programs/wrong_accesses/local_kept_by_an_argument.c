#include <stdio.h>

struct slot {
    int *target;
    int used;
};

void bind(struct slot *s)
{
    int counter = 0;
    s->target = &counter;
    ++*s->target;
    s->used = *s->target;
}

int main(void)
{
    struct slot s = {0, 0};
    bind(&s);
    if (s.used)
        ++*s.target;
    return s.used;
}
