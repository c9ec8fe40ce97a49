#include <stdio.h>

void number(long n)
{
    char digits[24];
    int count = 0;
    if (n < 0) {
        putchar('-');
        n = -n;
    }
    do {
        digits[count++] = '0' + n % 10;
        n /= 10;
    } while (n > 0);
    while (count > 0)
        putchar(digits[--count]);
}
void field(long n, int behind)
{
    number(n);
    putchar(behind);
}
static int least(int a, int b, int c)
{
    int m = a < b ? a : b;
    return m < c ? m : c;
}

int distance(const char *a, const char *b)
{
    int row[32], i, j, last = 0;
    for (j = 0; b[j]; j++)
        row[j] = j;
    row[j] = j;
    for (i = 1; a[i - 1]; i++) {
        int corner = row[0];
        row[0] = i;
        for (j = 1; b[j - 1]; j++) {
            int above = row[j];
            row[j] = least(above + 1, row[j - 1] + 1, corner + (a[i - 1] != b[j - 1]));
            corner = above;
        }
    }
    while (b[last])
        last++;
    return row[last];
}

const char *pairs[][2] = {
    {"kitten", "sitting"}, {"saturday", "sunday"}, {"", "abc"}, {"same", "same"}, {"intention", "execution"},
    {"abcdefgh", ""}, {"a", "b"}
};

int main(void)
{
    unsigned i;
    int sum = 0;
    for (i = 0; i < sizeof pairs / sizeof *pairs; i++) {
        int there = distance(pairs[i][0], pairs[i][1]);
        int back = distance(pairs[i][1], pairs[i][0]);
        field(there, there == back ? ' ' : '?');
        sum = sum * 3 + there;
    }
    putchar('\n');
    return sum & 255;
}
