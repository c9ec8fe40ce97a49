#include <stdio.h>

void number(long n)
{
    if (n < 0) {
        putchar('-');
        n = -n;
    }
    if (n > 9)
        number(n / 10);
    putchar('0' + n % 10);
}
void line(long n)
{
    number(n);
    putchar('\n');
}

/* the four digits of a number in falling order, by counting each digit */
int falling(int n)
{
    int digit, result = 0;
    for (digit = 9; digit >= 0; digit--) {
        int m = n, place;
        for (place = 0; place < 4; place++, m /= 10)
            if (m % 10 == digit)
                result = result * 10 + digit;
    }
    return result;
}

int rising(int n)
{
    int digit, result = 0;
    for (digit = 0; digit <= 9; digit++) {
        int m = n, place;
        for (place = 0; place < 4; place++, m /= 10)
            if (m % 10 == digit)
                result = result * 10 + digit;
    }
    return result;
}

int main(void)
{
    int n;
    for (n = 1000; n < 10000; n += 1234) {
        int m = n, steps = 0;
        while (m != 6174 && m != 0) {
            m = falling(m) - rising(m);
            steps++;
        }
        number(n);
        putchar(' ');
        line(steps);
    }
    return 0;
}
