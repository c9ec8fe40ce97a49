#include <stdio.h>

/* the place of a smaller number than all is sought on before the first */
void insert(int *numbers, int count, int value)
{
    int i = count - 1;
    while (numbers[i] > value) {
        numbers[i + 1] = numbers[i];
        i--;
    }
    numbers[i + 1] = value;
}

int main(void)
{
    int numbers[8], i, count = 0;
    static const int given[] = {10, 20, 15, 5, 7};
    numbers[count++] = given[0];
    for (i = 1; i < 5; i++)
        insert(numbers, count++, given[i]);
    for (i = 0; i < count; i++)
        putchar('a' + numbers[i]);
    return 0;
}
