#include <stdio.h>
#include <stdlib.h>

int main(void)
{
    int count = 8, i, *items = malloc(count * sizeof *items);
    for (i = 0; i < count; i++)
        items[i] = i;
    items = realloc(items, 4 * sizeof *items);
    printf("%d", items[0]);
    for (i = count - 1; i >= 0; i--)
        printf("%d", items[i]);
    free(items);
    return 0;
}
