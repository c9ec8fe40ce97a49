#include <stdio.h>
#include <stdlib.h>
#include <string.h>

struct text { unsigned char size; char *bytes; };

void set(struct text *t, const char *s)
{
    t->size = strlen(s);
    t->bytes = malloc(t->size + 1);
    strcpy(t->bytes, s);
}

int main(void)
{
    struct text t;
    char large[260];
    set(&t, "abc");
    printf("%d %s\n", t.size, t.bytes);
    free(t.bytes);
    memset(large, 'x', 259);
    large[259] = '\0';
    set(&t, large);
    printf("%d\n", t.size);
    return 0;
}
