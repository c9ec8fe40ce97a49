#include <stdio.h>

void number(long n)
{
    char digits[24];
    int count = 0;
    if (n < 0) {
        putchar('-');
        n = -n;
    }
    do {
        digits[count++] = '0' + n % 10;
        n /= 10;
    } while (n > 0);
    while (count > 0)
        putchar(digits[--count]);
}
void field(long n, int behind)
{
    number(n);
    putchar(behind);
}
enum align { LEFT, RIGHT, CENTRE };

struct column {
    const char *title;
    unsigned char width;
    enum align align;
};

struct row {
    const char *cells[3];
};

static const struct column columns[3] = {{"Item", 8, LEFT}, {"Qty", 5, RIGHT}, {"Tag", 7, CENTRE}};

static const struct row rows[] = {
    {{"bolts", "12", "a"}}, {{"nuts", "1500", "bcd"}}, {{"very long name", "", "even"}}
};

void fill(int c, int times)
{
    for (; times > 0; times--)
        putchar(c);
}

void cell(const struct column *c, const char *s)
{
    int n = 0, i, left = 0;
    while (s[n] && n < c->width)
        n++;
    if (c->align == RIGHT)
        left = c->width - n;
    else if (c->align == CENTRE)
        left = (c->width - n) / 2;
    fill(' ', left);
    for (i = 0; i < n; i++)
        putchar(s[i]);
    fill('.', c->width - n - left);
}

int main(void)
{
    const struct row *r;
    int i, width = 0;
    for (i = 0; i < 3; i++) {
        cell(columns + i, columns[i].title);
        width += columns[i].width;
        putchar(i < 2 ? '|' : '\n');
    }
    fill('-', width + 2);
    putchar('\n');
    for (r = rows; r < rows + sizeof rows / sizeof rows[0]; r++)
        for (i = 0; i < 3; i++) {
            cell(&columns[i], r->cells[i]);
            putchar(i < 2 ? '|' : '\n');
        }
    field((long)sizeof(struct column), '\n');
    return width;
}
