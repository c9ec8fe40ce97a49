#include <stdio.h>

void number(long n)
{
    char digits[24];
    int count = 0;
    if (n < 0) {
        putchar('-');
        n = -n;
    }
    do {
        digits[count++] = '0' + n % 10;
        n /= 10;
    } while (n > 0);
    while (count > 0)
        putchar(digits[--count]);
}
void field(long n, int behind)
{
    number(n);
    putchar(behind);
}
static char cells[9][9];
static short rows[9], columns[9], boxes[3][3];
static long tries;

void toggle(int r, int c, int digit)
{
    short bit = 1 << digit;
    rows[r] ^= bit;
    columns[c] ^= bit;
    boxes[r / 3][c / 3] ^= bit;
}

int choices(int r, int c)
{
    return ~(rows[r] | columns[c] | boxes[r / 3][c / 3]) & 0x3fe;
}

int bits(int set)
{
    int n = 0;
    for (; set; set &= set - 1)
        n++;
    return n;
}

int solve(void)
{
    int r, c, best = 10, at_row = 0, at_column = 0, set, digit;
    for (r = 0; r < 9; r++)
        for (c = 0; c < 9; c++)
            if (cells[r][c] == 0 && bits(choices(r, c)) < best) {
                best = bits(choices(r, c));
                at_row = r;
                at_column = c;
            }
    if (best == 10)
        return 1;
    set = choices(at_row, at_column);
    for (digit = 1; digit <= 9; digit++)
        if (set >> digit & 1) {
            tries++;
            cells[at_row][at_column] = digit;
            toggle(at_row, at_column, digit);
            if (solve())
                return 1;
            toggle(at_row, at_column, digit);
            cells[at_row][at_column] = 0;
        }
    return 0;
}

int main(void)
{
    static char puzzle[] =
        "53..7....6..195....98....6.8...6...34..8.3..17...2...6.6....28....419..5....8..79";
    int i;
    for (i = 0; puzzle[i]; i++)
        if (puzzle[i] != '.') {
            cells[i / 9][i % 9] = puzzle[i] - '0';
            toggle(i / 9, i % 9, puzzle[i] - '0');
        }
    if (!solve())
        return 1;
    for (i = 0; i < 81; i++) {
        putchar('0' + cells[i / 9][i % 9]);
        if (i % 9 == 8)
            putchar('\n');
    }
    field(tries, '\n');
    return 0;
}
