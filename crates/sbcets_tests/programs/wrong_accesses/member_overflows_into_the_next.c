#include <stdio.h>

struct user {
    char name[6];
    char is_admin;
};

int main(void)
{
    static const char given[] = "guest!!";
    struct user u = {{0}, 0};
    int i;
    for (i = 0; given[i]; i++) {
        char *name = u.name;
        name[i] = given[i];
        putchar(given[i]);
    }
    return u.is_admin;
}
