#include <stdio.h>

void sort(unsigned char *a, int n)
{
    int i, j;
    for (i = 0; i < n; i++)
        for (j = 0; j < n - i; j++)
            if (a[j] > a[j + 1]) {
                unsigned char t = a[j];
                a[j] = a[j + 1];
                a[j + 1] = t;
            }
}

int main(void)
{
    unsigned char word[] = {'d', 'c', 'a', 'b'};
    int i;
    sort(word, 4);
    for (i = 0; i < 4; i++)
        putchar(word[i]);
    return 0;
}
