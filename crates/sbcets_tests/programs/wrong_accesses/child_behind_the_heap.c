#include <stdio.h>

static int heap[7] = {1, 9, 4, 12, 11, 6, 5};

void sift(int *h, int count)
{
    int at = 0;
    for (;;) {
        int child = 2 * at + 1, t;
        if (child >= count)
            return;
        if (h[child + 1] < h[child])
            child++;
        if (h[at] <= h[child])
            return;
        t = h[at];
        h[at] = h[child];
        h[child] = t;
        at = child;
    }
}

int main(void)
{
    int small[6];
    int i;
    heap[0] = 20;
    sift(heap, 7);
    if (heap[0] != 4)
        return 1;
    for (i = 0; i < 6; i++)
        small[i] = i;
    small[0] = 30;
    small[2] = 3;
    small[1] = 4;
    sift(small, 6);
    return small[0];
}
