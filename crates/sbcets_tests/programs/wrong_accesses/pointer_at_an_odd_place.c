#include <stdio.h>

int main(void)
{
    long room[3] = {0};
    char letter = 'z', **at = (char **)((char *)room + 3);
    room[2] = letter;
    *(char **)&room[1] = &letter;
    putchar(**(char **)&room[1]);
    *at = &letter;
    putchar(**at);
    return 0;
}
