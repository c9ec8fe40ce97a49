#include <stdio.h>

void number(long n)
{
    char digits[24];
    int count = 0;
    if (n < 0) {
        putchar('-');
        n = -n;
    }
    do {
        digits[count++] = '0' + n % 10;
        n /= 10;
    } while (n > 0);
    while (count > 0)
        putchar(digits[--count]);
}
void field(long n, int behind)
{
    number(n);
    putchar(behind);
}
void text(char *s)
{
    while (*s)
        putchar(*s++);
}
struct thing {
    char *name;
    int weight, worth;
};

static struct thing things[] = {
    {"map", 9, 150}, {"compass", 13, 35}, {"water", 153, 200}, {"sandwich", 50, 160}, {"glucose", 15, 60},
    {"tin", 68, 45}, {"banana", 27, 60}, {"apple", 39, 40}, {"cheese", 23, 30}, {"beer", 52, 10}
};

enum { COUNT = sizeof things / sizeof things[0], ROOM = 200 };

static int best[COUNT + 1][ROOM + 1];

int main(void)
{
    int i, w, weight = 0;
    for (i = 1; i <= COUNT; i++) {
        struct thing *t = &things[i - 1];
        int *now = best[i], *before = best[i - 1];
        for (w = 0; w <= ROOM; w++) {
            now[w] = before[w];
            if (w >= t->weight && before[w - t->weight] + t->worth > now[w])
                now[w] = before[w - t->weight] + t->worth;
        }
    }
    field(best[COUNT][ROOM], '\n');
    for (i = COUNT, w = ROOM; i > 0; i--)
        if (best[i][w] != best[i - 1][w]) {
            text(things[i - 1].name);
            putchar(' ');
            w -= things[i - 1].weight;
            weight += things[i - 1].weight;
        }
    putchar('\n');
    return weight;
}
