#include <stdio.h>
#include <string.h>

struct path { char text[8]; int is_absolute; };

void join(struct path *p, const char *part)
{
    if (p->text[0])
        strcat(p->text, "/");
    strcat(p->text, part);
}

int main(void)
{
    struct path p = {"", 0}, q = {"", 0};
    join(&p, "usr");
    join(&p, "bin");
    puts(p.text);
    join(&q, "home");
    join(&q, "ann");
    puts(q.text);
    return q.is_absolute;
}
