#include <stdio.h>

int main(void)
{
    char letters[5];
    int i, sum = 0;
    for (i = 0; i < 5; i++)
        letters[i] = 'a' + i;
    for (i = 0; i <= 5; i++)
        putchar(letters[i]);
    for (i = 0; i < 5; i++)
        sum += letters[i];
    return sum;
}
