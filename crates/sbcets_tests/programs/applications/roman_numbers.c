#include <stdio.h>
#include <string.h>

static const struct { int value; const char *letters; } parts[] = {
    {1000, "M"}, {900, "CM"}, {500, "D"}, {400, "CD"}, {100, "C"}, {90, "XC"}, {50, "L"}, {40, "XL"}, {10, "X"},
    {9, "IX"}, {5, "V"}, {4, "IV"}, {1, "I"}
};

char *roman(int n, char *to)
{
    unsigned i;
    to[0] = '\0';
    for (i = 0; i < sizeof parts / sizeof parts[0]; i++)
        while (n >= parts[i].value) {
            strcat(to, parts[i].letters);
            n -= parts[i].value;
        }
    return to;
}

int number(const char *s)
{
    static const char letters[] = "IVXLCDM";
    static const int values[] = {1, 5, 10, 50, 100, 500, 1000};
    int sum = 0, before = 0;
    for (; *s; s++) {
        const char *l = strchr(letters, *s);
        int v;
        if (l == NULL)
            return -1;
        v = values[l - letters];
        sum += v;
        if (v > before)
            sum -= 2 * before;
        before = v;
    }
    return sum;
}

int main(void)
{
    static const int years[] = {1066, 1492, 1789, 1945, 1999, 2024, 4};
    char room[20], longest[20] = "";
    int i, wrong = 0;
    for (i = 0; i < 7; i++)
        printf("%d %s\n", years[i], roman(years[i], room));
    for (i = 1; i < 4000; i += 17) {
        if (number(roman(i, room)) != i)
            wrong++;
        if (strlen(room) > strlen(longest))
            strcpy(longest, room);
    }
    printf("%s %d\n", longest, number(longest));
    printf("%d %d\n", number("MCMXCIX") - number("IC"), number("ABC"));
    return wrong;
}
