#include <stdio.h>
#include <stdlib.h>

/* any function of two numbers with a table of what it gave, by the function's pointer */
typedef long function(int, int);

struct known { function *f; int a, b; long value; struct known *next; };

static struct known *table[31];
static int asked, worked;

static long get(function *f, int a, int b)
{
    struct known **slot = &table[(unsigned)(a * 7 + b) % 31], *k;
    asked++;
    for (k = *slot; k; k = k->next)
        if (k->f == f && k->a == a && k->b == b)
            return k->value;
    worked++;
    k = malloc(sizeof *k);
    k->f = f;
    k->a = a;
    k->b = b;
    k->value = f(a, b);
    k->next = *slot;
    *slot = k;
    return k->value;
}

static long choices(int n, int k)
{
    return k == 0 || k == n ? 1 : get(choices, n - 1, k - 1) + get(choices, n - 1, k);
}

static long ways(int amount, int coin)
{
    static const int coins[] = {1, 2, 5, 10, 20, 50};
    long sum = 0;
    if (amount == 0)
        return 1;
    for (; coin >= 0; coin--)
        if (coins[coin] <= amount)
            sum += get(ways, amount - coins[coin], coin);
    return sum;
}

static long mixed(int n, int m)
{
    return n <= 0 ? m : get(m % 2 ? mixed : choices, n - 1, m / 2) + m;
}

int main(void)
{
    int i;
    printf("%ld ", get(choices, 20, 10));
    printf("%ld ", get(ways, 30, 5));
    printf("%ld\n", get(mixed, 9, 29));
    printf("%d %d\n", asked, worked);
    for (i = 0; i < 31; i++)
        while (table[i]) {
            struct known *k = table[i];
            table[i] = k->next;
            free(k);
            worked--;
        }
    return worked;
}
