#include <stdio.h>
#include <stdlib.h>

struct field { char bytes[4]; int length; };

void end(struct field *f)
{
    f->bytes[f->length] = '\0';
}

int main(void)
{
    struct field f = {{'f', 'u', 'l', 'l'}, 4};
    int i;
    for (i = 0; i < f.length; i++)
        putchar(f.bytes[i]);
    end(&f);
    puts(f.bytes);
    return 0;
}
