#include <stdio.h>

void number(long n)
{
    char digits[24];
    int count = 0;
    if (n < 0) {
        putchar('-');
        n = -n;
    }
    do {
        digits[count++] = '0' + n % 10;
        n /= 10;
    } while (n > 0);
    while (count > 0)
        putchar(digits[--count]);
}
void field(long n, int behind)
{
    number(n);
    putchar(behind);
}
void turn(char *from, char *to)
{
    for (; from < to; from++, to--) {
        char c = *from;
        *from = *to;
        *to = c;
    }
}

/* the next permutation of the letters up to end, in the order of a dictionary; 0 where this was the last */
int next(char *letters, char *end)
{
    char *p = end - 1, *q = end;
    while (p > letters && p[-1] >= *p)
        p--;
    if (p == letters) {
        turn(letters, end - 1);
        return 0;
    }
    p--;
    do
        q--;
    while (*q <= *p);
    *p ^= *q;
    *q ^= *p;
    *p ^= *q;
    turn(p + 1, end - 1);
    return 1;
}

int inversions(const char *s)
{
    int n = 0, i, j;
    for (i = 0; s[i]; i++)
        for (j = i + 1; s[j]; j++)
            n += s[i] > s[j];
    return n;
}

int main(void)
{
    char word[] = "aabc", six[7] = "123456";
    int count = 0, even = 0, i;
    do {
        for (i = 0; word[i]; i++)
            putchar(word[i]);
        putchar(' ');
        count++;
    } while (next(word, word + 4));
    field(count, '\n');
    count = 0;
    do {
        count++;
        even += inversions(six) % 2 == 0;
        if (count == 500)
            for (i = 0; i < 6; i++)
                putchar(six[i]);
    } while (next(six, &six[6]));
    putchar('\n');
    field(count, ' ');
    field(even, '\n');
    return six[0];
}
