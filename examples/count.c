/* Prints how many lines, words and bytes its input has, as wc does: bin/sbcets go examples/count.c <FILE */
#include <stdio.h>

enum place { OUTSIDE, INSIDE };

void print(unsigned long n)
{
    if (n >= 10)
        print(n / 10);
    putchar('0' + n % 10);
}

int main(void)
{
    unsigned long lines = 0, words = 0, bytes = 0;
    enum place place = OUTSIDE;
    int c;
    for (; (c = getchar()) != EOF; bytes++) {
        switch (c) {
        case '\n':
            lines++;
        case ' ':
        case '\t':
            place = OUTSIDE;
            break;
        default:
            if (place == OUTSIDE)
                words++;
            place = INSIDE;
        }
    }
    print(lines);
    putchar(' ');
    print(words);
    putchar(' ');
    print(bytes);
    putchar('\n');
    return 0;
}
