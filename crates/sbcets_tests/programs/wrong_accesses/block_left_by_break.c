#include <stdio.h>

char *find(char wanted)
{
    char *found = 0;
    int i;
    for (i = 0; i < 5; i++) {
        char letter[1] = {'a'};
        letter[0] += i;
        if (letter[0] == wanted) {
            found = letter;
            putchar(*found);
            break;
        }
    }
    if (wanted == 'c')
        return found;
    return 0;
}

int main(void)
{
    char *b = find('b');
    char *c = find('c');
    if (b == 0 && *c == 'c')
        return 1;
    return 0;
}
