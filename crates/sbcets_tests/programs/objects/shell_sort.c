#include <stdio.h>

void number(long n)
{
    char digits[24];
    int count = 0;
    if (n < 0) {
        putchar('-');
        n = -n;
    }
    do {
        digits[count++] = '0' + n % 10;
        n /= 10;
    } while (n > 0);
    while (count > 0)
        putchar(digits[--count]);
}
void field(long n, int behind)
{
    number(n);
    putchar(behind);
}
void text(char *s)
{
    while (*s)
        putchar(*s++);
}
struct city {
    const char *name;
    int people;
};

struct city cities[] = {
    {"Ulm", 126}, {"Bonn", 327}, {"Kiel", 246}, {"Jena", 111}, {"Trier", 110}, {"Köln", 1073},
    {"Mainz", 217}, {"Essen", 582}, {"Halle", 239}, {"Gera", 93}
};

int order(const char *a, const char *b)
{
    int i = 0;
    while (a[i] != 0 && a[i] == b[i])
        i++;
    return a[i] < b[i] ? -1 : a[i] > b[i];
}

void sort(struct city *c, int n, int by_name)
{
    int gap, i, j;
    for (gap = n / 2; gap > 0; gap /= 2)
        for (i = gap; i < n; i++) {
            const char *name = c[i].name;
            int people = c[i].people;
            for (j = i; j >= gap; j -= gap) {
                struct city *before = &c[j - gap];
                if (by_name ? order(before->name, name) <= 0 : before->people <= people)
                    break;
                c[j].name = before->name;
                c[j].people = before->people;
            }
            c[j].name = name;
            c[j].people = people;
        }
}

int main(void)
{
    int i, n = sizeof cities / sizeof *cities;
    sort(cities, n, 0);
    for (i = 0; i < n; i++)
        field(cities[i].people, i < n - 1 ? ' ' : '\n');
    sort(cities, n, 1);
    for (i = 0; i < n; i++) {
        text((char *)cities[i].name);
        putchar(i < n - 1 ? ' ' : '\n');
    }
    return n;
}
