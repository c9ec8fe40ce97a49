#include <stdio.h>
#include <string.h>

struct state { char name[4]; int counts[3]; };

void clear(struct state *s)
{
    memset(s->counts, 0, sizeof *s);
}

int main(void)
{
    struct state s = {"abc", {1, 2, 3}};
    clear(&s);
    return s.counts[2];
}
