#include <stdio.h>

static signed char sorted[120];

int find(signed char wanted)
{
    signed char low = 0, high = 119;
    while (low <= high) {
        signed char middle = low + high;
        middle /= 2;
        if (sorted[middle] == wanted)
            return middle;
        if (sorted[middle] < wanted)
            low = middle + 1;
        else
            high = middle - 1;
    }
    return -1;
}

int main(void)
{
    int i;
    for (i = 0; i < 120; i++)
        sorted[i] = i;
    if (find(59) != 59 || find(10) != 10)
        return 1;
    return find(100);
}
