#include <stdio.h>
#include <stdlib.h>

void number(long n)
{
    char digits[24];
    int count = 0;
    if (n < 0) {
        putchar('-');
        n = -n;
    }
    do {
        digits[count++] = '0' + n % 10;
        n /= 10;
    } while (n > 0);
    while (count > 0)
        putchar(digits[--count]);
}
#define CELLS 64

static unsigned char tape[CELLS];

/* where the bracket that belongs to the one at p stands */
const char *partner(const char *p)
{
    int depth = 0, step = *p == '[' ? 1 : -1;
    do {
        if (*p == '[')
            depth++;
        else if (*p == ']')
            depth--;
        p += step;
    } while (depth != 0);
    return p - step;
}

long run(const char *program)
{
    unsigned char *cell = tape;
    long steps = 0;
    const char *p;
    for (p = program; *p; p++) {
        steps++;
        switch (*p) {
        case '>': cell++; break;
        case '<': cell--; break;
        case '+': ++*cell; break;
        case '-': --*cell; break;
        case '.': putchar(*cell); break;
        case ',': {
            int c = getchar();
            *cell = c == EOF ? 0 : c;
            break;
        }
        case '[': if (*cell == 0) p = partner(p); break;
        case ']': if (*cell != 0) p = partner(p); break;
        default: exit(99);
        }
    }
    return steps;
}

int main(void)
{
    long steps = run(
        "++++++++[>++++[>++>+++>+++>+<<<<-]>+>+>->>+[<]<-]>>.>---.+++++++..+++."
        ">>.<-.<.+++.------.--------.>>+.>++.");
    int i;
    for (i = 0; i < CELLS; i++)
        tape[i] = 0;
    steps += run(",[>+<-.,]>[>++<-]>.");
    putchar('\n');
    number(steps);
    putchar('\n');
    return tape[2];
}
