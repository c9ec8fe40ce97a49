#include <stdio.h>

void number(long n)
{
    char digits[24];
    int count = 0;
    if (n < 0) {
        putchar('-');
        n = -n;
    }
    do {
        digits[count++] = '0' + n % 10;
        n /= 10;
    } while (n > 0);
    while (count > 0)
        putchar(digits[--count]);
}
void field(long n, int behind)
{
    number(n);
    putchar(behind);
}
union word {
    unsigned int number;
    unsigned char bytes[4];
    unsigned short halves[2];
    struct { char low, next; signed char last[2]; } parts;
};

void hex(unsigned n, int digits)
{
    while (digits-- > 0)
        putchar("0123456789abcdef"[n >> 4 * digits & 15]);
}

void turn(union word *w)
{
    unsigned char *low = w->bytes, *high = &w->bytes[3];
    while (low < high) {
        unsigned char b = *low;
        *low++ = *high;
        *high-- = b;
    }
}

unsigned sum_of_bytes(const void *of, unsigned long n)
{
    const unsigned char *p = of;
    unsigned sum = 0;
    while (n-- > 0)
        sum = sum * 257 + *p++;
    return sum;
}

int main(void)
{
    union word w, table[3];
    long wide[2] = {0x1122334455667788, -2};
    int i;
    w.number = 0xdeadbeef;
    hex(w.bytes[0], 2);
    hex(w.halves[1], 4);
    turn(&w);
    hex(w.number, 8);
    putchar('\n');
    field(w.parts.low, ' ');
    field(w.parts.last[1], '\n');
    for (i = 0; i < 3; i++) {
        table[i].number = 0;
        table[i].halves[i & 1] = 0x0102 << i;
        table[i].parts.last[1] -= i;
    }
    for (i = 0; i < 3; i++) {
        hex(table[i].number, 8);
        putchar(i < 2 ? ' ' : '\n');
    }
    hex(sum_of_bytes(table, sizeof table), 8);
    putchar(' ');
    hex(sum_of_bytes(wide, sizeof wide), 8);
    putchar(' ');
    hex(*((unsigned short *)wide + 1), 4);
    putchar('\n');
    return ((unsigned char *)&wide[1])[0];
}
