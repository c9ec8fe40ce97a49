#include <stdlib.h>
#include <stdio.h>

struct entry { unsigned key, value; };

struct entry *table(unsigned count)
{
    struct entry *t = malloc(count * (unsigned)sizeof(struct entry));
    unsigned i;
    for (i = 0; t && i < count; i++)
        t[i].key = i;
    return t;
}

int main(void)
{
    struct entry *t = table(4);
    if (t[3].key != 3)
        return 1;
    free(t);
    t = table(0x20000002);
    puts("made");
    return 0;
}
