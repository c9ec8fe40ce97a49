#include <stdio.h>

void number(long n)
{
    if (n < 0) {
        putchar('-');
        n = -n;
    }
    if (n > 9)
        number(n / 10);
    putchar('0' + n % 10);
}

enum day { SATURDAY, SUNDAY, MONDAY, TUESDAY, WEDNESDAY, THURSDAY, FRIDAY };

enum day weekday(int year, int month, int day)
{
    if (month < 3) {
        month += 12;
        year--;
    }
    return (day + 13 * (month + 1) / 5 + year % 100 + year % 100 / 4 + year / 100 / 4 + 5 * (year / 100)) % 7;
}

void two_letters(enum day d)
{
    switch (d) {
    case MONDAY: putchar('M'); putchar('o'); break;
    case TUESDAY: putchar('T'); putchar('u'); break;
    case WEDNESDAY: putchar('W'); putchar('e'); break;
    case THURSDAY: putchar('T'); putchar('h'); break;
    case FRIDAY: putchar('F'); putchar('r'); break;
    case SATURDAY: putchar('S'); putchar('a'); break;
    case SUNDAY: putchar('S'); putchar('u'); break;
    default: putchar('?');
    }
}

int main(void)
{
    int year, fridays = 0, month;
    for (year = 1583; year < 2100; year += 47) {
        number(year);
        putchar(' ');
        two_letters(weekday(year, 7, 4));
        putchar('\n');
    }
    for (month = 1; month <= 12; month++)
        fridays += weekday(2026, month, 13) == FRIDAY;
    return fridays;
}
