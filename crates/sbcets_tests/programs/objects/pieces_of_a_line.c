#include <stdio.h>
#include <stddef.h>

void number(long n)
{
    char digits[24];
    int count = 0;
    if (n < 0) {
        putchar('-');
        n = -n;
    }
    do {
        digits[count++] = '0' + n % 10;
        n /= 10;
    } while (n > 0);
    while (count > 0)
        putchar(digits[--count]);
}
void field(long n, int behind)
{
    number(n);
    putchar(behind);
}
/* the next piece between the separators, which ends with a zero byte put in the text; none at its end */
char *next_piece(char **rest, const char *separators)
{
    char *start = *rest, *p;
    if (start == NULL)
        return NULL;
    for (p = start; *p; p++) {
        const char *s;
        for (s = separators; *s; s++)
            if (*s == *p) {
                *p = '\0';
                *rest = p + 1;
                return start;
            }
    }
    *rest = NULL;
    return start;
}

int is_number(const char *s, int *value)
{
    int n = 0, sign = 1;
    if (*s == '-') {
        sign = -1;
        s++;
    }
    if (!*s)
        return 0;
    for (; *s; s++) {
        if (*s < '0' || *s > '9')
            return 0;
        n = n * 10 + (*s - '0');
    }
    *value = sign * n;
    return 1;
}

int main(void)
{
    char line[] = "12,-7;x9,,300;-;0042", *rest = line, *piece;
    int numbers[8], *last = numbers, others = 0, value = -1;
    while ((piece = next_piece(&rest, ",;")) != NULL)
        if (is_number(piece, &value))
            *last++ = value;
        else {
            others++;
            field(piece - line, *piece ? 'w' : 'e');
        }
    putchar('\n');
    while (last != numbers) {
        last--;
        field(*last, last == numbers ? '\n' : ' ');
    }
    field(value, ' ');
    field(line[8], ' ');
    field(next_piece(&rest, "") == NULL, '\n');
    return others;
}
