#include <stdio.h>
#include <stdlib.h>

struct settings { char *name; };

void set(struct settings *s, char *name)
{
    free(s->name);
    s->name = name;
}

int main(void)
{
    struct settings s = {NULL};
    set(&s, "default");
    puts(s.name);
    set(&s, "other");
    puts(s.name);
    return 0;
}
