/* Reads a number from 1 to 20 and prints its multiplication table: echo 12 | bin/sbcets go examples/table.c */
#include <stdio.h>

int digits(int n)
{
    int count = 1;
    while (n >= 10) {
        n /= 10;
        count++;
    }
    return count;
}

void print_number(int n, int width)
{
    int i;
    for (i = digits(n); i < width; i++)
        putchar(' ');
    if (n >= 10)
        print_number(n / 10, 0);
    putchar('0' + n % 10);
}

int read_number(void)
{
    int n = 0;
    int c = getchar();
    while (c == ' ' || c == '\n')
        c = getchar();
    for (; c >= '0' && c <= '9'; c = getchar())
        n = n * 10 + (c - '0');
    return n;
}

int main(void)
{
    int size = read_number();
    int row, column;
    if (size < 1 || size > 20)
        return 1;
    for (row = 1; row <= size; row++) {
        for (column = 1; column <= size; column++)
            print_number(row * column, 4);
        putchar('\n');
    }
    return 0;
}
