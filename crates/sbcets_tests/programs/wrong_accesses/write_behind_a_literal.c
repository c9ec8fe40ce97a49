#include <stdio.h>

void end_with(char *s, char c)
{
    int n = 0;
    while (s[n])
        n++;
    s[n] = c;
    s[n + 1] = 0;
}

int main(void)
{
    char room[8] = "abc";
    end_with(room, 'd');
    if (room[3] != 'd')
        return 1;
    end_with("abc", 'd');
    return 0;
}
