#include <stdio.h>
#include <string.h>

static int sorted[4];
static int count;

void insert(int n)
{
    int at = 0;
    while (at < count && sorted[at] < n)
        at++;
    memmove(&sorted[at + 1], &sorted[at], (count - at) * sizeof(int));
    sorted[at] = n;
    count++;
}

int main(void)
{
    static const int given[] = {3, 1, 4, 2, 0};
    int i;
    for (i = 0; i < 4; i++)
        insert(given[i]);
    for (i = 0; i < count; i++)
        printf("%d ", sorted[i]);
    insert(given[4]);
    printf("%d\n", sorted[0]);
    return 0;
}
