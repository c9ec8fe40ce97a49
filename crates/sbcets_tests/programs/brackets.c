#include <stdio.h>
#include <stdlib.h>

void number(long n)
{
    if (n < 0) {
        putchar('-');
        n = -n;
    }
    if (n > 9)
        number(n / 10);
    putchar('0' + n % 10);
}

/* the deepest nesting, or the byte where brackets do not match; the closing one that is wanted goes along */
int matched(int wanted, int depth)
{
    int c, most = depth;
    while ((c = getchar()) != wanted) {
        int found;
        switch (c) {
        case '(':
            found = matched(')', depth + 1);
            break;
        case '[':
            found = matched(']', depth + 1);
            break;
        case '{':
            found = matched('}', depth + 1);
            break;
        case ')': case ']': case '}': case EOF:
            putchar('!');
            putchar('\n');
            exit(1);
        default:
            continue;
        }
        if (found > most)
            most = found;
    }
    return most;
}

int main(void)
{
    int deepest = matched(EOF, 0);
    number(deepest);
    putchar('\n');
    return 0;
}
