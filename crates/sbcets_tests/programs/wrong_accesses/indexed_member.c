#include <stdio.h>

struct account {
    long id;
    short history[2];
    short balance;
};

static struct account accounts[2] = {{1, {1, 2}, 7}, {2, {3, 4}, 8}};

void show(struct account *a, int count)
{
    int i;
    for (i = 0; i < count; i++)
        putchar('0' + a->history[i]);
}

int main(void)
{
    show(&accounts[0], 2);
    show(&accounts[0], 3);
    return 0;
}
