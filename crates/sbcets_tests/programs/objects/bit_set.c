#include <stdio.h>

void number(long n)
{
    char digits[24];
    int count = 0;
    if (n < 0) {
        putchar('-');
        n = -n;
    }
    do {
        digits[count++] = '0' + n % 10;
        n /= 10;
    } while (n > 0);
    while (count > 0)
        putchar(digits[--count]);
}
void field(long n, int behind)
{
    number(n);
    putchar(behind);
}
typedef unsigned long word;

enum { BITS = 8 * sizeof(word), WORDS = 4 };

struct set {
    word words[WORDS];
};

void add(struct set *s, unsigned n)
{
    s->words[n / BITS] |= (word)1 << n % BITS;
}

int has(const struct set *s, unsigned n)
{
    return s->words[n / BITS] >> n % BITS & 1;
}

int count(const struct set *s)
{
    const word *w;
    int n = 0;
    for (w = s->words; w != s->words + WORDS; w++) {
        word left = *w;
        while (left) {
            left &= left - 1;
            n++;
        }
    }
    return n;
}

void meet(struct set *to, const struct set *with)
{
    int i;
    for (i = 0; i < WORDS; i++)
        to->words[i] &= with->words[i];
}

void turn(struct set *s)
{
    int i;
    for (i = 0; i < WORDS; i++)
        s->words[i] = ~s->words[i];
}

int main(void)
{
    struct set three = {{0}}, squares = {{0}};
    unsigned i;
    for (i = 0; i < WORDS * BITS; i += 3)
        add(&three, i);
    for (i = 0; i * i < WORDS * BITS; i++)
        add(&squares, i * i);
    field(count(&three), ' ');
    field(count(&squares), '\n');
    meet(&squares, &three);
    for (i = 0; i < WORDS * BITS; i++)
        if (has(&squares, i))
            field(i, ' ');
    putchar('\n');
    turn(&three);
    field(count(&three), ' ');
    field(has(&three, 255) * 2 + has(&three, 254), '\n');
    return sizeof(struct set);
}
