#include <stdio.h>

void number(long n)
{
    char digits[24];
    int count = 0;
    if (n < 0) {
        putchar('-');
        n = -n;
    }
    do {
        digits[count++] = '0' + n % 10;
        n /= 10;
    } while (n > 0);
    while (count > 0)
        putchar(digits[--count]);
}
/* structures by value: arguments, results, assignment */
struct fraction {
    long over, under;
};

long divisor(long a, long b)
{
    return b == 0 ? (a < 0 ? -a : a) : divisor(b, a % b);
}

struct fraction reduced(long over, long under)
{
    struct fraction f;
    long d = divisor(over, under);
    f.over = over / d;
    f.under = under / d;
    return f;
}

struct fraction sum(struct fraction a, struct fraction b)
{
    return reduced(a.over * b.under + b.over * a.under, a.under * b.under);
}

struct fraction product(struct fraction a, struct fraction b)
{
    a.over *= b.over;
    a.under *= b.under;
    return reduced(a.over, a.under);
}

void show(struct fraction f, int behind)
{
    number(f.over);
    if (f.under != 1) {
        putchar('/');
        number(f.under);
    }
    putchar(behind);
}

int main(void)
{
    struct fraction harmonic = {0, 1}, half = {1, 2}, power = {1, 1}, all[4];
    int i;
    for (i = 1; i <= 12; i++) {
        struct fraction f = {1, 0};
        f.under = i;
        harmonic = sum(harmonic, f);
        power = product(power, half);
        all[i & 3] = harmonic;
    }
    show(harmonic, '\n');
    show(power, '\n');
    for (i = 0; i < 4; i++)
        show(all[i], i < 3 ? ' ' : '\n');
    show(sum(product(all[1], half), all[2]), '\n');
    show(reduced(84, -36), ' ');
    show(reduced(-6, 3), '\n');
    return (int)reduced(100, 8).over;
}
