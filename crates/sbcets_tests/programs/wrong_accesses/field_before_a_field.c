#include <stdio.h>

struct item {
    char kind;
    char letters[7];
};

char *kind_of(char *letters)
{
    return letters - 1;
}

int main(void)
{
    struct item items[2] = {{'k', "abc"}, {'l', "xyz"}};
    char *kind = kind_of(items[1].letters);
    putchar(items[0].letters[1]);
    *kind = 'm';
    putchar(items[1].kind);
    return 0;
}
