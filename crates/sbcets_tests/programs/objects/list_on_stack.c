#include <stdio.h>

void number(long n)
{
    char digits[24];
    int count = 0;
    if (n < 0) {
        putchar('-');
        n = -n;
    }
    do {
        digits[count++] = '0' + n % 10;
        n /= 10;
    } while (n > 0);
    while (count > 0)
        putchar(digits[--count]);
}
void field(long n, int behind)
{
    number(n);
    putchar(behind);
}
struct node {
    int value;
    const struct node *next;
};

int sum(const struct node *list)
{
    int s = 0;
    for (; list; list = list->next)
        s = s * 2 + list->value;
    return s;
}

void show(const struct node *list)
{
    if (!list) {
        putchar('\n');
        return;
    }
    show(list->next);
    field(list->value, ' ');
}

/* each call holds one node of the list */
int grow(int n, const struct node *rest)
{
    struct node here;
    here.value = n * n - 3 * n;
    here.next = rest;
    if (n == 0) {
        show(&here);
        putchar('\n');
        return sum(&here);
    }
    return grow(n - 1, &here);
}

int longest(const struct node *list, int depth)
{
    struct node odd = {depth, list};
    if (depth > 12)
        return sum(list);
    if (depth & 1)
        return longest(&odd, depth + 1);
    return longest(list, depth + 1) + depth;
}

int main(void)
{
    int a = grow(9, 0), b = longest(0, 1);
    field(a, '\n');
    field(b, '\n');
    return (a + b) & 63;
}
