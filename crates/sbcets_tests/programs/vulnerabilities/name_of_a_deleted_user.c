#include <stdio.h>
#include <stdlib.h>
#include <string.h>

struct user { char name[16]; int level; };

static struct user *current;

void log_in(const char *name)
{
    current = calloc(1, sizeof *current);
    strncpy(current->name, name, sizeof current->name - 1);
}

void log_out(void)
{
    free(current);
}

int main(void)
{
    log_in("anonymous");
    puts(current->name);
    log_out();
    if (current->level > 0)
        puts("welcome");
    return 0;
}
