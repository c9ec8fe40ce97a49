#include <stdio.h>

union cell {
    char letter;
    int number;
};

int main(void)
{
    union cell cells[2];
    char *p = &cells[0].letter;
    cells[0].number = 'a';
    putchar(*p);
    *(int *)p = 'b';
    putchar(cells[0].letter);
    return 0;
}
