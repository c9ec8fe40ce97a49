/* Reads lines such as 12 + 3 * 4 and prints the value of each: * and / bind more than + and -, and a sign may stand
   before a number. A line that is no expression prints ?. echo '12 + 3 * 4' | bin/sbcets go examples/calculator.c */
#include <stdio.h>

void print(long n)
{
    if (n < 0) {
        putchar('-');
        if (n <= -10)
            print(-(n / 10));
        putchar('0' - n % 10);
        return;
    }
    if (n >= 10)
        print(n / 10);
    putchar('0' + n % 10);
}

int is_digit(int c)
{
    return c >= '0' && c <= '9';
}

int next(void)
{
    int c;
    do
        c = getchar();
    while (c == ' ');
    return c;
}

int main(void)
{
    int c = next();
    while (c != EOF) {
        long sum = 0, product = 1, number;
        int add = '+', multiply = '*', fine = 1, sign;
        for (;;) {
            sign = 1;
            for (; c == '-' || c == '+'; c = next())
                if (c == '-')
                    sign = -sign;
            if (!is_digit(c))
                fine = 0;
            for (number = 0; is_digit(c); c = next())
                number = number * 10 + (c - '0');
            if (multiply == '*')
                product *= sign * number;
            else if (number == 0)
                fine = 0;
            else
                product /= sign * number;
            if (c == '*' || c == '/') {
                multiply = c;
                c = next();
                continue;
            }
            sum = add == '+' ? sum + product : sum - product;
            if (c != '+' && c != '-')
                break;
            add = c;
            product = 1;
            multiply = '*';
            c = next();
        }
        for (; c != '\n' && c != EOF; c = next())
            fine = 0;
        if (fine)
            print(sum);
        else
            putchar('?');
        putchar('\n');
        if (c == '\n')
            c = next();
    }
    return 0;
}
