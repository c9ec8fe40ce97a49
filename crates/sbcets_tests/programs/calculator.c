#include <stdio.h>
#include <stdlib.h>

void number(long n)
{
    if (n < 0) {
        putchar('-');
        n = -n;
    }
    if (n > 9)
        number(n / 10);
    putchar('0' + n % 10);
}
void line(long n)
{
    number(n);
    putchar('\n');
}

/* Sums, differences, products, quotients and remainders with parentheses, a line each. What is read ahead is kept in
   the upper part of a number: value * 256 + byte. */

long expression(int c);

int past_blanks(int c)
{
    while (c == ' ')
        c = getchar();
    return c;
}

long pair(long value, int c)
{
    return value * 256 + (c < 0 ? 0 : c);
}

long value_of(long p)
{
    return p >> 8;
}

int byte_of(long p)
{
    return p & 255;
}

long primary(int c)
{
    long n = 0;
    c = past_blanks(c);
    if (c == '(') {
        long p = expression(getchar());
        if (byte_of(p) != ')')
            exit(2);
        return pair(value_of(p), past_blanks(getchar()));
    }
    if (c == '-') {
        long p = primary(getchar());
        return pair(-value_of(p), byte_of(p));
    }
    if (c < '0' || c > '9')
        exit(3);
    while (c >= '0' && c <= '9') {
        n = n * 10 + c - '0';
        c = getchar();
    }
    return pair(n, past_blanks(c));
}

long term(int c)
{
    long p = primary(c);
    while (byte_of(p) == '*' || byte_of(p) == '/' || byte_of(p) == '%') {
        int operator = byte_of(p);
        long left = value_of(p), right;
        p = primary(getchar());
        right = value_of(p);
        if (operator == '*')
            left *= right;
        else if (right == 0)
            exit(4);
        else if (operator == '/')
            left /= right;
        else
            left %= right;
        p = pair(left, byte_of(p));
    }
    return p;
}

long expression(int c)
{
    long p = term(c);
    while (byte_of(p) == '+' || byte_of(p) == '-') {
        int operator = byte_of(p);
        long left = value_of(p);
        p = term(getchar());
        p = pair(operator == '+' ? left + value_of(p) : left - value_of(p), byte_of(p));
    }
    return p;
}

int main(void)
{
    int c, lines = 0;
    while ((c = getchar()) != EOF) {
        long p;
        if (c == '\n')
            continue;
        p = expression(c);
        line(value_of(p));
        if (byte_of(p) != '\n')
            exit(1);
        lines++;
    }
    return 100 + lines;
}
