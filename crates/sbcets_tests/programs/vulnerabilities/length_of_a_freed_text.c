#include <stdio.h>
#include <stdlib.h>
#include <string.h>

struct cache { char *text; };

void replace(struct cache *c, const char *s)
{
    char *fresh = malloc(strlen(s) + 1);
    strcpy(fresh, s);
    free(c->text);
    c->text = fresh;
}

int main(void)
{
    struct cache c = {NULL};
    const char *old;
    replace(&c, "first");
    old = c.text;
    printf("%lu\n", strlen(old));
    replace(&c, "second");
    replace(&c, old);
    return 0;
}
