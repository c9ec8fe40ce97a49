#include <stdio.h>

void number(long n)
{
    char digits[24];
    int count = 0;
    if (n < 0) {
        putchar('-');
        n = -n;
    }
    do {
        digits[count++] = '0' + n % 10;
        n /= 10;
    } while (n > 0);
    while (count > 0)
        putchar(digits[--count]);
}
void field(long n, int behind)
{
    number(n);
    putchar(behind);
}
/* objects of blocks that are entered again and again, and are left in each way */
int smallest_missing(const int *numbers, int n)
{
    int found, i;
    for (found = 1;; found++) {
        char is_there[4] = {0, 0, 0, 0};
        for (i = 0; i < n; i++) {
            int difference[2];
            difference[0] = numbers[i] - found;
            difference[1] = -difference[0];
            if (difference[0] < 0)
                continue;
            if (difference[difference[1] == 0] == 0) {
                is_there[i & 3]++;
                break;
            }
        }
        if (is_there[0] + is_there[1] + is_there[2] + is_there[3] == 0)
            return found;
    }
}

long digits_turned(long n)
{
    long turned = 0;
    do {
        int digit[1] = {0};
        int *d = digit;
        *d += n % 10;
        turned = turned * 10 + digit[0];
        n /= 10;
        if (turned > 1000000000)
            return -1;
    } while (n > 0);
    return turned;
}

int main(void)
{
    int given[9] = {3, 1, 4, 1, 5, 9, 2, 6, 5}, i, *p = given;
    field(smallest_missing(given, 9), ' ');
    field(smallest_missing(given, 3), ' ');
    field(smallest_missing(given, 0), '\n');
    for (i = 0; i < 3; i++) {
        int square[3];
        square[i] = i;
        {
            int *q = &square[i];
            *q = *q * 10 + *p++;
            p = *q > 13 ? p : &given[5];
        }
        switch (i) {
            int unused[2];
        case 1:
            unused[1] = 40;
            square[1] += unused[1];
            break;
        default:
            square[i] += 1;
        }
        field(square[i], ' ');
    }
    putchar('\n');
    field(digits_turned(123450), ' ');
    field(digits_turned(98765432109), '\n');
    return p - given;
}
