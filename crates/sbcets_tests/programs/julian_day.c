#include <stdio.h>

void number(long n)
{
    if (n < 0) {
        putchar('-');
        n = -n;
    }
    if (n > 9)
        number(n / 10);
    putchar('0' + n % 10);
}
void line(long n)
{
    number(n);
    putchar('\n');
}

long julian(int y, int m, int d)
{
    int a = (14 - m) / 12;
    long yy = y + 4800 - a;
    int mm = m + 12 * a - 3;
    return d + (153 * mm + 2) / 5 + 365 * yy + yy / 4 - yy / 100 + yy / 400 - 32045;
}

void date(long j)
{
    long f = j + 1401 + (4 * j + 274277) / 146097 * 3 / 4 - 38;
    long e = 4 * f + 3, g = e % 1461 / 4, h = 5 * g + 2;
    long d = h % 153 / 5 + 1, m = (h / 153 + 2) % 12 + 1;
    number(e / 1461 - 4716 + (14 - m) / 12);
    putchar('-');
    number(m);
    putchar('-');
    line(d);
}

int main(void)
{
    long j;
    line(julian(2000, 1, 1));
    line(julian(1582, 10, 15));
    line(julian(2026, 11, 28) - julian(1969, 7, 20));
    for (j = 2299161; j < 2470000; j += 12345)
        date(j);
    return julian(2024, 3, 1) - julian(2024, 2, 1);
}
