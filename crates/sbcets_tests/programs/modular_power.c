#include <stdio.h>

void number(long n)
{
    if (n < 0) {
        putchar('-');
        n = -n;
    }
    if (n > 9)
        number(n / 10);
    putchar('0' + n % 10);
}
void line(long n)
{
    number(n);
    putchar('\n');
}

typedef unsigned long word;

word power(word base, word exponent, word modulus)
{
    word result = 1 % modulus;
    base %= modulus;
    for (; exponent; exponent >>= 1) {
        if (exponent & 1)
            result = result * base % modulus;
        base = base * base % modulus;
    }
    return result;
}

/* the least exponent above 0 with the power 1, or 0 where there is none */
word order(word base, word modulus)
{
    word exponent, result = base % modulus;
    for (exponent = 1; exponent < modulus; exponent++) {
        if (result == 1)
            return exponent;
        result = result * base % modulus;
    }
    return 0;
}

int main(void)
{
    word n;
    line(power(2, 10, 1000007));
    line(power(3, 1000000, 1000000007));
    line(power(7, 65537, 4294967291u));
    for (n = 81; n < 1000; n += 88) {
        word exponent = order(10, n);
        line(exponent);
        line(power(10, exponent + 1, n));
    }
    return power(5, 117, 19);
}
