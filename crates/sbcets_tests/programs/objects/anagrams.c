#include <stdio.h>

void number(long n)
{
    char digits[24];
    int count = 0;
    if (n < 0) {
        putchar('-');
        n = -n;
    }
    do {
        digits[count++] = '0' + n % 10;
        n /= 10;
    } while (n > 0);
    while (count > 0)
        putchar(digits[--count]);
}
void field(long n, int behind)
{
    number(n);
    putchar(behind);
}
void text(char *s)
{
    while (*s)
        putchar(*s++);
}
char *words[] = {"listen", "silent", "enlist", "google", "elgoog", "tinsel", "abc", "cab", "a", ""};

#define COUNT (sizeof words / sizeof words[0])

void count(char *word, int counts[26], int by)
{
    for (; *word; word++)
        counts[*word - 'a'] += by;
}

int are_anagrams(char *a, char *b)
{
    int counts[26], i;
    for (i = 0; i < 26; i++)
        counts[i] = 0;
    count(a, counts, 1);
    count(b, counts, -1);
    for (i = 0; i < 26; i++)
        if (counts[i])
            return 0;
    return 1;
}

int main(void)
{
    char is_done[COUNT] = {0};
    unsigned i, j, groups = 0;
    for (i = 0; i < COUNT; i++) {
        if (is_done[i])
            continue;
        groups++;
        text(words[i]);
        for (j = i + 1; j < COUNT; j++)
            if (!is_done[j] && are_anagrams(words[i], words[j])) {
                is_done[j] = 1;
                putchar(' ');
                text(words[j]);
            }
        putchar('\n');
    }
    field(groups, '\n');
    return groups;
}
