#include <stdio.h>

void reverse(char *s, int n)
{
    char *low = s, *high = s + n;
    while (low < high) {
        char c = *low;
        *low++ = *high;
        *high-- = c;
    }
}

int main(void)
{
    char word[4] = {'w', 'o', 'r', 'd'};
    int i;
    reverse(word, 4);
    for (i = 0; i < 4; i++)
        putchar(word[i]);
    return 0;
}
