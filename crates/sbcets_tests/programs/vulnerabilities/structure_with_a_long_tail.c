#include <stdio.h>
#include <stdlib.h>
#include <string.h>

/* the last member is used beyond its end, into what was allocated behind it */
struct text { int length; char letters[1]; };

int main(void)
{
    static const char given[] = "hi";
    struct text *t = malloc(sizeof *t + strlen(given));
    int i;
    t->length = (int)strlen(given);
    for (i = 0; i <= t->length; i++) {
        t->letters[i] = given[i];
        putchar(given[i]);
    }
    return 0;
}
