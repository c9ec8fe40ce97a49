#include <stdio.h>
#include <stdlib.h>

struct animal { void (*speak)(const struct animal *); const char *sound; };

static void speak(const struct animal *a)
{
    puts(a->sound);
}

struct animal *cat(void)
{
    struct animal *a = malloc(sizeof *a);
    a->speak = speak;
    a->sound = "miau";
    return a;
}

int main(void)
{
    struct animal *a = cat();
    a->speak(a);
    free(a);
    a->speak(a);
    return 0;
}
