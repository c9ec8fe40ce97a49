#include <stdio.h>

int *third(void)
{
    int three[3] = {1, 2, 3}, *p = three;
    return p + 3;
}

/* what is outside and dead is outside */
int main(void)
{
    int *p = third();
    return *p;
}
