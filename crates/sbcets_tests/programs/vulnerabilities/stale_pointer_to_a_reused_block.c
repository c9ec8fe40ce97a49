#include <stdio.h>
#include <stdlib.h>
#include <string.h>

struct session { char role[8]; };

struct session *open_session(const char *role)
{
    struct session *s = malloc(sizeof *s);
    strcpy(s->role, role);
    return s;
}

int main(void)
{
    struct session *old = open_session("user"), *fresh;
    printf("%s", old->role);
    free(old);
    fresh = open_session("admin");
    if (fresh == old)
        printf(" %s\n", old->role);
    free(fresh);
    return old == fresh ? 0 : old->role[0];
}
