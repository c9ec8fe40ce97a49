#include <stdio.h>

/* structures by value: an argument is read of an object that is dead */
struct part { char name[4]; int size; };

int size(struct part p)
{
    return p.size;
}

int main(void)
{
    struct part *p;
    int n = 0;
    do {
        struct part here = {"abc", 5};
        p = &here;
        n += size(*p);
    } while (n < 5);
    putchar('0' + n);
    return size(*p);
}
