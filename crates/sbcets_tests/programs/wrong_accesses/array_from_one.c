#include <stdio.h>

/* an array whose first element would be number 1 */
int main(void)
{
    int cells[3] = {1, 2, 3}, *from_one, i;
    from_one = cells - 1;
    putchar('0' + from_one[2]);
    for (i = 3; i >= 0; i--)
        from_one[i] = 0;
    return cells[0];
}
