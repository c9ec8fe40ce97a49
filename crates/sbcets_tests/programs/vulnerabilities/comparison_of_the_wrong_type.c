#include <stdio.h>
#include <string.h>

typedef int comparison(const void *, const void *);

static int by_text(const char *a, const char *b)
{
    return strcmp(a, b);
}

static void sort(int *numbers, int n, comparison *compare)
{
    int i, j;
    for (i = 1; i < n; i++)
        for (j = i; j > 0 && compare(&numbers[j - 1], &numbers[j]) > 0; j--) {
            int t = numbers[j];
            numbers[j] = numbers[j - 1];
            numbers[j - 1] = t;
        }
}

int main(void)
{
    int numbers[] = {3, 1, 2};
    sort(numbers, 3, (comparison *)by_text);
    printf("%d\n", numbers[0]);
    return 0;
}
