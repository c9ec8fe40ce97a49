#include <stdio.h>
#include <stdlib.h>
#include <string.h>

/* arrangements and choices that are told to a function with its own data */
typedef int visitor(const char *, void *);

struct sum { int count, limit; unsigned hash; };
struct best { char text[8]; int value; };

static int arrange(char *s, int from, visitor *visit, void *data)
{
    int i;
    if (!s[from])
        return visit(s, data);
    for (i = from; s[i]; i++) {
        char c = s[from];
        int is_over;
        s[from] = s[i];
        s[i] = c;
        is_over = arrange(s, from + 1, visit, data);
        c = s[from];
        s[from] = s[i];
        s[i] = c;
        if (is_over)
            return 1;
    }
    return 0;
}

static int choose(const char *from, char *to, int n, visitor *visit, void *data)
{
    if (n == 0)
        return visit(to, data);
    if (strlen(from) < (size_t)n)
        return 0;
    {
        size_t end = strlen(to);
        to[end] = *from;
        to[end + 1] = 0;
        if (choose(from + 1, to, n - 1, visit, data))
            return 1;
        to[end] = '\0';
    }
    return choose(from + 1, to, n, visit, data);
}

static int add_up(const char *s, void *data)
{
    struct sum *sum = data;
    for (; *s; s++)
        sum->hash = sum->hash * 37 + *s;
    return ++sum->count == sum->limit;
}

static int print(const char *s, void *data)
{
    int *left = data;
    printf("%s ", s);
    return --*left == 0;
}

static int compare(const char *s, void *data)
{
    struct best *b = data;
    int value = (s[0] - '0') * (s[1] - '0') - (s[2] - '0') * (s[3] - '0');
    if (value > b->value) {
        b->value = value;
        strcpy(b->text, s);
    }
    return 0;
}

int main(void)
{
    char word[] = "abcde", room[8] = "", digits[] = "38514";
    struct sum sum = {0, 100, 1};
    struct best best = {"", -1000};
    int left = 7;
    printf("%d ", arrange(word, 0, add_up, &sum));
    printf("%d %x %s\n", sum.count, sum.hash, word);
    arrange(word, 2, print, &left);
    printf("\n");
    left = 12;
    choose("vwxyz", room, 3, &print, &left);
    puts(room);
    arrange(digits, 0, compare, &best);
    printf("%s %d\n", best.text, best.value);
    return left;
}
