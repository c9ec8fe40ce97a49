#include <stdio.h>

void number(long n)
{
    char digits[24];
    int count = 0;
    if (n < 0) {
        putchar('-');
        n = -n;
    }
    do {
        digits[count++] = '0' + n % 10;
        n /= 10;
    } while (n > 0);
    while (count > 0)
        putchar(digits[--count]);
}
void field(long n, int behind)
{
    number(n);
    putchar(behind);
}
void text(char *s)
{
    while (*s)
        putchar(*s++);
}
#define SLOTS 64

struct slot {
    char word[12];
    int count;
};

static struct slot slots[SLOTS];

struct slot *slot_of(const char *word)
{
    unsigned hash = 5381;
    int i;
    for (i = 0; word[i]; i++)
        hash = hash * 33 ^ word[i];
    for (hash %= SLOTS; slots[hash].count; hash = (hash + 1) % SLOTS) {
        struct slot *s = &slots[hash];
        for (i = 0; word[i] && s->word[i] == word[i]; i++)
            ;
        if (s->word[i] == word[i])
            return s;
    }
    for (i = 0; (slots[hash].word[i] = word[i]) != 0; i++)
        ;
    return &slots[hash];
}

int is_letter(int c)
{
    return (c | 32) >= 'a' && (c | 32) <= 'z';
}

int main(void)
{
    char word[12];
    int c, n = 0, best, words = 0;
    do {
        c = getchar();
        if (is_letter(c)) {
            if (n < 11)
                word[n++] = c | 32;
        } else if (n > 0) {
            word[n] = 0;
            slot_of(word)->count++;
            words++;
            n = 0;
        }
    } while (c != EOF);
    for (best = words; best > 1; best--) {
        struct slot *s;
        for (s = slots; s < slots + SLOTS; s++)
            if (s->count == best) {
                text(s->word);
                field(best, '\n');
            }
    }
    return words;
}
