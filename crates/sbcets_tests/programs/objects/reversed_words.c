#include <stdio.h>

void text(char *s)
{
    while (*s)
        putchar(*s++);
}
void turn(char *from, char *to)
{
    while (from < --to) {
        char c = *from;
        *from++ = *to;
        *to = c;
    }
}

/* turns the words of a line around, by turning the line and then each word */
void turn_words(char *line)
{
    char *p = line, *start;
    while (*p)
        p++;
    turn(line, p);
    p = line;
    while (*p) {
        while (*p == ' ')
            p++;
        start = p;
        while (*p && *p != ' ')
            p++;
        turn(start, p);
    }
}

int main(void)
{
    char line[128];
    int c, n = 0, lines = 0;
    while ((c = getchar()) != EOF) {
        if (c != '\n') {
            if (n < 127)
                line[n++] = c;
            continue;
        }
        line[n] = 0;
        turn_words(line);
        text(line);
        putchar('\n');
        n = 0;
        lines++;
    }
    return lines;
}
