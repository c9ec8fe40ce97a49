#include <stdio.h>

void number(long n)
{
    char digits[24];
    int count = 0;
    if (n < 0) {
        putchar('-');
        n = -n;
    }
    do {
        digits[count++] = '0' + n % 10;
        n /= 10;
    } while (n > 0);
    while (count > 0)
        putchar(digits[--count]);
}
void field(long n, int behind)
{
    number(n);
    putchar(behind);
}
void text(char *s)
{
    while (*s)
        putchar(*s++);
}
static unsigned char lengths[40][40];

int length(const char *s)
{
    int n = 0;
    while (*s++)
        n++;
    return n;
}

char *common(const char *a, const char *b, char *end)
{
    int na = length(a), nb = length(b), i, j;
    for (i = 0; i <= na; i++)
        for (j = 0; j <= nb; j++) {
            unsigned char *here = &lengths[i][j];
            if (i == 0 || j == 0)
                *here = 0;
            else if (a[i - 1] == b[j - 1])
                *here = lengths[i - 1][j - 1] + 1;
            else
                *here = lengths[i - 1][j] > here[-1] ? lengths[i - 1][j] : here[-1];
        }
    *end = '\0';
    for (i = na, j = nb; i > 0 && j > 0;)
        if (a[i - 1] == b[j - 1]) {
            *--end = a[--i];
            j--;
        } else if (lengths[i - 1][j] >= lengths[i][j - 1])
            i--;
        else
            j--;
    return end;
}

int main(void)
{
    char room[40];
    char *found = common("the cat sat on the mat", "that hat is on the man", &room[39]);
    text(found);
    putchar('\n');
    field(&room[39] - found, '\n');
    text(common("ABCBDAB", "BDCABA", room + 39));
    putchar('\n');
    text(common("xyz", "", room + 39));
    return lengths[3][0] + length(found);
}
