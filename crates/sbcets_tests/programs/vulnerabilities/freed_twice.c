#include <stdio.h>
#include <stdlib.h>

int *make(int n)
{
    int *p = malloc(sizeof *p);
    *p = n;
    return p;
}

int main(void)
{
    int *p = make(1), is_error;
    printf("%d\n", *p);
    is_error = *p == 1;
    if (is_error)
        free(p);
    free(p);
    return 0;
}
