#include <stdio.h>

void number(long n)
{
    char digits[24];
    int count = 0;
    if (n < 0) {
        putchar('-');
        n = -n;
    }
    do {
        digits[count++] = '0' + n % 10;
        n /= 10;
    } while (n > 0);
    while (count > 0)
        putchar(digits[--count]);
}
void field(long n, int behind)
{
    number(n);
    putchar(behind);
}
#define LIMIT 3000

static unsigned char composite[LIMIT / 8 + 1];

int is_set(const unsigned char *bits, int n)
{
    return bits[n >> 3] >> (n & 7) & 1;
}

void set(unsigned char *bits, int n)
{
    bits[n >> 3] |= 1 << (n & 7);
}

int main(void)
{
    int primes[450], *last = primes, *p;
    int i, j, gap = 0, at = 0;
    for (i = 2; i < LIMIT; i++) {
        if (is_set(composite, i))
            continue;
        *last++ = i;
        for (j = i * i; j < LIMIT; j += i)
            set(composite, j);
    }
    field(last - primes, '\n');
    for (p = last - 5; p < last; p++)
        field(*p, ' ');
    putchar('\n');
    for (p = primes + 1; p < last; p++)
        if (p[0] - p[-1] > gap) {
            gap = p[0] - p[-1];
            at = p[-1];
        }
    field(gap, ' ');
    field(at, '\n');
    return (last - primes) % 256;
}
