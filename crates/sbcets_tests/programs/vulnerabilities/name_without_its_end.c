#include <stdio.h>
#include <string.h>

struct person { char name[8]; char phone[8]; };

void set(struct person *p, const char *name, const char *phone)
{
    strncpy(p->name, name, sizeof p->name);
    strncpy(p->phone, phone, sizeof p->phone);
}

int main(void)
{
    struct person p;
    set(&p, "Ann", "12345");
    printf("%s\n", p.name);
    set(&p, "Annemary", "12345");
    printf("%s\n", p.name);
    return 0;
}
