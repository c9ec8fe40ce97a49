/* Reads a year from 1583 on and a month, and prints the month: echo 2024 2 | bin/sbcets go examples/calendar.c */
#include <stdio.h>

int read_number(void)
{
    int n = 0;
    int c = getchar();
    while (c == ' ' || c == '\n')
        c = getchar();
    for (; c >= '0' && c <= '9'; c = getchar())
        n = n * 10 + (c - '0');
    return n;
}

int is_leap(int year)
{
    return year % 4 == 0 && (year % 100 != 0 || year % 400 == 0);
}

int days_in(int year, int month)
{
    switch (month) {
    case 2:
        return is_leap(year) ? 29 : 28;
    case 4:
    case 6:
    case 9:
    case 11:
        return 30;
    default:
        return 31;
    }
}

/* The day of the week of the first of a month, 0 for Monday. */
int first_day(int year, int month)
{
    int before = year - 1;
    int days = before * 365 + before / 4 - before / 100 + before / 400;
    int m;
    for (m = 1; m < month; m++)
        days += days_in(year, m);
    return days % 7;
}

int main(void)
{
    int year = read_number();
    int month = read_number();
    int day, column;
    if (year < 1583 || month < 1 || month > 12)
        return 1;
    column = first_day(year, month);
    for (day = 0; day < column; day++) {
        putchar(' ');
        putchar(' ');
        putchar(' ');
    }
    for (day = 1; day <= days_in(year, month); day++) {
        putchar(day < 10 ? ' ' : '0' + day / 10);
        putchar('0' + day % 10);
        column++;
        putchar(column % 7 == 0 ? '\n' : ' ');
    }
    if (column % 7 != 0)
        putchar('\n');
    return 0;
}
