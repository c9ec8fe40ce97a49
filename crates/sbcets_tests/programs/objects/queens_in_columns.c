#include <stdio.h>

void number(long n)
{
    char digits[24];
    int count = 0;
    if (n < 0) {
        putchar('-');
        n = -n;
    }
    do {
        digits[count++] = '0' + n % 10;
        n /= 10;
    } while (n > 0);
    while (count > 0)
        putchar(digits[--count]);
}
void field(long n, int behind)
{
    number(n);
    putchar(behind);
}
struct board {
    int size;
    signed char column_of[8];
    char is_taken[8], rising[15], falling[15];
    long solutions, tried;
};

void show(const struct board *b)
{
    int i;
    for (i = 0; i < b->size; i++)
        putchar('a' + b->column_of[i]);
    putchar('\n');
}

void place(struct board *b, int row)
{
    int c;
    if (row == b->size) {
        if (b->solutions++ == 0)
            show(b);
        return;
    }
    for (c = 0; c < b->size; c++) {
        char *r = &b->rising[row + c], *f = &b->falling[row - c + 7];
        b->tried++;
        if (b->is_taken[c] || *r || *f)
            continue;
        b->is_taken[c] = *r = *f = 1;
        b->column_of[row] = c;
        place(b, row + 1);
        b->is_taken[c] = *r = *f = 0;
    }
}

int main(void)
{
    int n;
    for (n = 4; n <= 7; n++) {
        struct board b = {0};
        b.size = n;
        place(&b, 0);
        field(b.solutions, ' ');
        field(b.tried, '\n');
    }
    return 0;
}
