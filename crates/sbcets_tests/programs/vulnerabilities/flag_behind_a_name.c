#include <stdio.h>
#include <string.h>

struct login { char name[8]; char is_admin; };

int check(const char *name)
{
    struct login l = {"", 0};
    strcpy(l.name, name);
    puts(l.is_admin ? "granted" : "denied");
    return l.is_admin;
}

int main(void)
{
    int sum = check("ann");
    sum += check("annabel1x");
    return sum;
}
