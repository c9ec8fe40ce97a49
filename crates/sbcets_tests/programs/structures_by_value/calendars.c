#include <stdio.h>
#include <stdlib.h>
#include <string.h>

/* months as texts of a page, side by side */
struct page { char *lines[8]; int width; };

static int is_leap(int y)
{
    return (y % 4 == 0 && y % 100) || y % 400 == 0;
}

static int days(int y, int m)
{
    static const char lengths[] = {31, 28, 31, 30, 31, 30, 31, 31, 30, 31, 30, 31};
    return lengths[m - 1] + (m == 2 && is_leap(y));
}

/* 0 for Monday (Zeller) */
static int weekday(int y, int m, int d)
{
    int a = y - (m < 3), b = m < 3 ? m + 12 : m;
    return (d + 13 * (b + 1) / 5 + a + a / 4 - a / 100 + a / 400 + 5) % 7;
}

static struct page page(int y, int m)
{
    static const char names[] = "JanFebMarAprMayJunJulAugSepOctNovDec";
    struct page p;
    int i, day, at = weekday(y, m, 1);
    p.width = 20;
    for (i = 0; i < 8; i++) {
        p.lines[i] = malloc(p.width + 1);
        memset(p.lines[i], ' ', p.width);
        p.lines[i][p.width] = '\0';
    }
    memcpy(p.lines[0] + 8, names + 3 * (m - 1), 3);
    memcpy(p.lines[1], "Mo Tu We Th Fr Sa Su", 20);
    for (day = 1; day <= days(y, m); day++, at++) {
        char *cell = p.lines[2 + at / 7] + 3 * (at % 7);
        if (day > 9)
            cell[0] = '0' + day / 10;
        cell[1] = '0' + day % 10;
    }
    return p;
}

static void show(struct page *pages, int count)
{
    int i, k;
    for (i = 0; i < 8; i++)
        for (k = 0; k < count; k++) {
            char *s = pages[k].lines[i];
            if (k == count - 1)
                while (*s && s[strlen(s) - 1] == ' ')
                    s[strlen(s) - 1] = '\0';
            printf("%s%s", s, k < count - 1 ? "|" : "\n");
            free(s);
        }
}

int main(void)
{
    struct page pages[1];
    int y, friday = 0;
    pages[0] = page(2024, 2);
    show(pages, 1);
    for (y = 1; y <= 12; y++)
        friday += weekday(2026, y, 13) == 4;
    printf("%d\n", friday);
    return weekday(2000, 1, 1);
}
