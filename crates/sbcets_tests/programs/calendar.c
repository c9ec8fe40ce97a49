#include <stdio.h>


void two(int n)
{
    putchar(n < 10 ? ' ' : '0' + n / 10);
    putchar('0' + n % 10);
}

int is_leap(int year)
{
    return year % 4 == 0 && (year % 100 != 0 || year % 400 == 0);
}

int days_in(int month, int year)
{
    switch (month) {
    case 2:
        return 28 + is_leap(year);
    case 4: case 6: case 9: case 11:
        return 30;
    }
    return 31;
}

void month(int m, int year, int first)
{
    int day = 1, column;
    for (column = 0; column < first; column++) {
        putchar(' ');
        putchar(' ');
        putchar(' ');
    }
    while (day <= days_in(m, year)) {
        two(day++);
        if (++column == 7) {
            putchar('\n');
            column = 0;
        } else
            putchar(' ');
    }
    putchar('\n');
}

int main(void)
{
    int m, first = 3;
    for (m = 1; m <= 3; m++) {
        month(m, 2024, first);
        first = (first + days_in(m, 2024)) % 7;
    }
    return first;
}
