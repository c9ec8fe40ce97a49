#include <stdio.h>

void number(long n)
{
    char digits[24];
    int count = 0;
    if (n < 0) {
        putchar('-');
        n = -n;
    }
    do {
        digits[count++] = '0' + n % 10;
        n /= 10;
    } while (n > 0);
    while (count > 0)
        putchar(digits[--count]);
}
void field(long n, int behind)
{
    number(n);
    putchar(behind);
}
#define A 3
#define B 4
#define C 5

static short cube[A][B][C];
static int calls;

int *counter(void)
{
    static int counts[A] = {100, 200, 300};
    static int *at = counts;
    int *now = at;
    calls++;
    at = at == &counts[A - 1] ? counts : at + 1;
    return now;
}

void fill(short (*c)[B][C])
{
    int i, j, k;
    for (i = 0; i < A; i++)
        for (j = 0; j < B; j++)
            for (k = 0; k < C; k++)
                c[i][j][k] = (i + 1) * (j - 1) * (k + 2);
}

long plane(short c[][C], int rows)
{
    long sum = 0;
    short (*row)[C] = c, *cell;
    for (; row != c + rows; row++)
        for (cell = *row; cell < *row + C; cell++)
            sum += *cell;
    return sum;
}

int main(void)
{
    short *flat = &cube[0][0][0];
    int i, largest = 0;
    fill(cube);
    for (i = 0; i < A; i++)
        field(plane(cube[i], B), ' ');
    field(plane(cube[0], A * B), '\n');
    for (i = 0; i < A * B * C; i++)
        if (flat[i] > flat[largest])
            largest = i;
    field(largest / (B * C), ' ');
    field(largest / C % B, ' ');
    field(largest % C, ' ');
    field(cube[2][3][4] + *(*(*(cube + 1) + 3) + 2), '\n');
    for (i = 0; i < 7; i++)
        *counter() += i;
    for (i = 0; i < 4; i++)
        field(*counter(), ' ');
    field(calls, '\n');
    field(sizeof cube, ' ');
    field(sizeof cube[0], ' ');
    field(sizeof *cube[0], ' ');
    field((char *)&cube[1] - (char *)cube, '\n');
    return 0;
}
