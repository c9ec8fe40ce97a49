#include <stdio.h>
#include <stdlib.h>

struct header { int length; };
struct packet { long number; struct header header; char body[8]; };

struct header *make(void)
{
    struct packet *p = calloc(1, sizeof *p);
    p->header.length = 7;
    return &p->header;
}

int main(void)
{
    struct header *h = make();
    printf("%d\n", h->length);
    free(h);
    return 0;
}
