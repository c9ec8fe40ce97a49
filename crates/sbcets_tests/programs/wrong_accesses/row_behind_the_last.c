#include <stdio.h>

int main(void)
{
    int m[3][2] = {{1, 2}, {3, 4}, {5, 6}}, (*row)[2] = m, sum = 0;
    while ((*row)[0] < 5) {
        sum += (*row)[0] + (*row)[1];
        row++;
    }
    putchar('0' + sum / 10), putchar('0' + sum % 10);
    row++;
    return (*row)[0];
}
