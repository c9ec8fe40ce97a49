#include <stdio.h>
#include <stdlib.h>

struct record { long number; char name[24]; long next; };

int main(void)
{
    struct record *r = malloc(sizeof r);
    r->number = 1;
    printf("%ld", r->number);
    r->next = 0;
    printf("%ld", r->next);
    free(r);
    return 0;
}
