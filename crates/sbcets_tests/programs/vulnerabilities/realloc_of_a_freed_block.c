#include <stdlib.h>
#include <string.h>
#include <stdio.h>

struct text { char *bytes; size_t room; };

void need(struct text *t, size_t room)
{
    if (room > t->room) {
        t->bytes = realloc(t->bytes, room);
        t->room = room;
    }
}

void clear(struct text *t)
{
    free(t->bytes);
    t->room = 0;
}

int main(void)
{
    struct text t = {NULL, 0};
    need(&t, 8);
    strcpy(t.bytes, "eight");
    clear(&t);
    need(&t, 16);
    puts(t.bytes);
    return 0;
}
