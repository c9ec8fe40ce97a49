#include <stdio.h>

void number(long n)
{
    char digits[24];
    int count = 0;
    if (n < 0) {
        putchar('-');
        n = -n;
    }
    do {
        digits[count++] = '0' + n % 10;
        n /= 10;
    } while (n > 0);
    while (count > 0)
        putchar(digits[--count]);
}
void field(long n, int behind)
{
    number(n);
    putchar(behind);
}
static int square[9][9];

void fill(int n)
{
    int row = 0, column = n / 2, value;
    for (row = 0; row < n; row++)
        for (value = 0; value < n; value++)
            square[row][value] = 0;
    row = 0;
    for (value = 1; value <= n * n; value++) {
        int up = (row + n - 1) % n, right = (column + 1) % n;
        square[row][column] = value;
        if (square[up][right] != 0)
            row = (row + 1) % n;
        else {
            row = up;
            column = right;
        }
    }
}

int is_magic(int n)
{
    int sums[20] = {0};
    int i, j;
    for (i = 0; i < n; i++)
        for (j = 0; j < n; j++) {
            sums[i] += square[i][j];
            sums[n + j] += square[i][j];
            sums[18] += (i == j) * square[i][j];
            sums[19] += (i + j == n - 1) * square[i][j];
        }
    for (i = 0; i < 2 * n; i++)
        if (sums[i] != sums[18])
            return 0;
    return sums[18] == sums[19] ? sums[18] : 0;
}

int main(void)
{
    int n, i, j;
    fill(5);
    for (i = 0; i < 5; i++)
        for (j = 0; j < 5; j++)
            field(square[i][j], j < 4 ? '\t' : '\n');
    for (n = 1; n <= 9; n += 2) {
        fill(n);
        field(is_magic(n), n < 9 ? ' ' : '\n');
    }
    return square[8][8];
}
