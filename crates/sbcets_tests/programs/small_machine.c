#include <stdio.h>
#include <stdlib.h>

void number(long n)
{
    if (n < 0) {
        putchar('-');
        n = -n;
    }
    if (n > 9)
        number(n / 10);
    putchar('0' + n % 10);
}
void line(long n)
{
    number(n);
    putchar('\n');
}

/* a machine with an accumulator, a counter and a stack of two, whose program is read as letters */
int main(void)
{
    long top = 0, below = 0, t;
    int c;
    while ((c = getchar()) != EOF) {
        switch (c) {
        case '0': case '1': case '2': case '3': case '4':
        case '5': case '6': case '7': case '8': case '9':
            below = top;
            top = c - '0';
            break;
        case 'd':
            below = top;
            break;
        case 's':
            t = top;
            top = below;
            below = t;
            break;
        case '+': top = below + top; break;
        case '-': top = below - top; break;
        case '*': top = below * top; break;
        case '<': top <<= 1;
            /* and one more, as it falls through */
        case 'i': top++;
        case ' ': case '\n':
            break;
        case 'p':
            line(top);
            break;
        case 'q':
            exit(top);
        default:
            putchar('?');
            putchar(c);
            putchar('\n');
        }
    }
    return 1;
}
