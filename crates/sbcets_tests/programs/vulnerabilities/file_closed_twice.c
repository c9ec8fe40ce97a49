#include <stdio.h>
#include <stdlib.h>
#include <string.h>

struct file { char *buffer; int is_open; };

struct file *open_file(void)
{
    struct file *f = malloc(sizeof *f);
    f->buffer = malloc(8);
    strcpy(f->buffer, "data");
    f->is_open = 1;
    return f;
}

int close_file(struct file *f)
{
    if (!f->is_open)
        return -1;
    f->is_open = 0;
    free(f->buffer);
    free(f);
    return 0;
}

int main(void)
{
    struct file *f = open_file();
    printf("%s", f->buffer);
    close_file(f);
    return close_file(f);
}
