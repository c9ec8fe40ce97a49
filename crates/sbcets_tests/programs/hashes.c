#include <stdio.h>

void hexadecimal(unsigned long n, int digits)
{
    int digit;
    if (digits > 1)
        hexadecimal(n >> 4, digits - 1);
    digit = n & 15;
    putchar(digit < 10 ? '0' + digit : 'a' + digit - 10);
}

unsigned long fnv(unsigned long h, int c)
{
    return (h ^ c) * 1099511628211UL;
}

unsigned int djb(unsigned int h, int c)
{
    return h * 33 + c;
}

unsigned int jenkins(unsigned int h, int c)
{
    h += c;
    h += h << 10;
    h ^= h >> 6;
    return h;
}

int main(void)
{
    unsigned long f = 14695981039346656037UL;
    unsigned int d = 5381, j = 0;
    int c;
    while ((c = getchar()) != EOF) {
        f = fnv(f, c);
        d = djb(d, c);
        j = jenkins(j, c);
    }
    j += j << 3;
    j ^= j >> 11;
    j += j << 15;
    hexadecimal(f, 16);
    putchar('\n');
    hexadecimal(d, 8);
    putchar('\n');
    hexadecimal(j, 8);
    putchar('\n');
    return d % 251;
}
