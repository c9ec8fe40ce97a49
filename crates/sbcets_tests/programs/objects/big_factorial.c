#include <stdio.h>

void number(long n)
{
    char digits[24];
    int count = 0;
    if (n < 0) {
        putchar('-');
        n = -n;
    }
    do {
        digits[count++] = '0' + n % 10;
        n /= 10;
    } while (n > 0);
    while (count > 0)
        putchar(digits[--count]);
}
#define DIGITS 80

struct big {
    unsigned char digits[DIGITS];
    int count;
};

void set(struct big *b, int value)
{
    unsigned char *d = b->digits;
    for (b->count = 0; value > 0; value /= 10, b->count++)
        *d++ = value % 10;
}

void multiply(struct big *b, int by)
{
    int i, carry = 0;
    for (i = 0; i < b->count; i++) {
        carry += b->digits[i] * by;
        b->digits[i] = carry % 10;
        carry /= 10;
    }
    for (; carry > 0; carry /= 10)
        b->digits[b->count++] = carry % 10;
}

void show(const struct big *b)
{
    const unsigned char *d = b->digits + b->count;
    while (d > b->digits)
        putchar('0' + *--d);
    putchar('\n');
}

int sum(const struct big *b)
{
    int s = 0, i;
    for (i = b->count; i--;)
        s += b->digits[i];
    return s;
}

int main(void)
{
    struct big f;
    int n;
    set(&f, 1);
    for (n = 2; n <= 52; n++) {
        multiply(&f, n);
        if (n == 20 || n == 30 || n == 52)
            show(&f);
    }
    set(&f, 65536);
    multiply(&f, 65536);
    show(&f);
    number(sum(&f));
    putchar('\n');
    return f.count;
}
