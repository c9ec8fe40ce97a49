#include <stdio.h>

#define LEVELS 3

static const int points[LEVELS] = {10, 20, 30};

int points_of(int level)
{
    if (level < 0 || level > LEVELS)
        return -1;
    return points[level];
}

int main(void)
{
    int c;
    while ((c = getchar()) != EOF)
        if (c != '\n')
            printf("%d\n", points_of(c - '0'));
    return 0;
}
