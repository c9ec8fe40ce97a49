#include <stdio.h>

void number(long n)
{
    char digits[21], *p = &digits[20];
    int negative = n < 0;
    *p = 0;
    do {
        int d = n % 10;
        *--p = '0' + (d < 0 ? -d : d);
        n /= 10;
    } while (n != 0);
    if (negative)
        *--p = '-';
    while (*p)
        putchar(*p++);
}
void field(long n, int behind)
{
    number(n);
    putchar(behind);
}
/* blocks with objects are left in all ways, from inside one another */
static int *kept;

static int visit(int n)
{
    int outer[2] = {0, 0}, i;
    outer[1] = n;
    for (i = 0;; i++) {
        int middle[3] = {1, 2, 3};
        int *m = &middle[i % 3];
        kept = outer;
        switch (n + i) {
            char inner[8];
        case 3:
            inner[3] = 'x';
            *m += inner[3];
            continue;
        case 5: {
            long deep = 7;
            long *d = &deep;
            *d *= *m;
            if (i == 2)
                return (int)deep + outer[1];
            break;
        }
        case 9:
            inner[7] = n;
            outer[0] = inner[7] + *m;
            return *kept;
        default:
            if (i > 3) {
                int last[1] = {5};
                int *l = last;
                kept = &outer[1];
                do {
                    int again[1] = {2};
                    *l += *again;
                    if (*l > 8)
                        break;
                } while (1);
                return *l + *kept;
            }
        }
        while (middle[0]) {
            int down[1];
            *down = middle[0] - 1;
            middle[0] = *down;
            if (down[0] == 0)
                continue;
        }
        outer[0] += middle[i % 3];
    }
}

int main(void)
{
    int n, sum = 0;
    for (n = -4; n < 10; n++) {
        int result = visit(n);
        sum = sum * 7 + result;
        field(result, n < 9 ? ' ' : '\n');
    }
    return sum & 127;
}
