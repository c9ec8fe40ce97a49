#include <stdio.h>
#include <stdlib.h>
#include <string.h>

int main(void)
{
    int *p = malloc(sizeof *p), *q = NULL;
    unsigned char *message = malloc(1 + sizeof p);
    *p = 42;
    printf("%d ", *p);
    message[0] = 'p';
    memcpy(message + 1, &p, sizeof p);
    memcpy(&q, message + 1, sizeof q);
    printf("%d\n", *q);
    return 0;
}
