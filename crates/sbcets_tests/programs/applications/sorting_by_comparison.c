#include <stdio.h>
#include <stdlib.h>
#include <string.h>

typedef int comparison(const void *, const void *);

/* sorts any array: elements are moved by memcpy, and compared by what is called */
void sort(void *array, size_t count, size_t size, comparison *compare)
{
    char *a = array, *held = malloc(size);
    size_t i, j;
    for (i = 1; i < count; i++) {
        memcpy(held, a + i * size, size);
        for (j = i; j > 0 && compare(a + (j - 1) * size, held) > 0; j--)
            memcpy(a + j * size, a + (j - 1) * size, size);
        memcpy(a + j * size, held, size);
    }
    free(held);
}

struct person { const char *name; int age; };

int by_number(const void *a, const void *b)
{
    const int *x = a, *y = b;
    return (*x > *y) - (*x < *y);
}

int downward(const void *a, const void *b)
{
    return by_number(b, a);
}

int by_text(const void *a, const void *b)
{
    return strcmp(*(char *const *)a, *(char *const *)b);
}

int by_age(const void *a, const void *b)
{
    const struct person *x = a, *y = b;
    return x->age - y->age;
}

int by_name(const void *a, const void *b)
{
    return strcmp(((const struct person *)a)->name, ((const struct person *)b)->name);
}

int main(void)
{
    int numbers[] = {5, -3, 99, 0, 7, -20, 7};
    const char *texts[] = {"pear", "fig", "apple", "figs", ""};
    struct person people[] = {{"Zoe", 31}, {"Adam", 44}, {"Mia", 31}, {"Bob", 8}};
    comparison *orders[] = {by_age, by_name};
    int i, k;
    sort(numbers, 7, sizeof numbers[0], by_number);
    for (i = 0; i < 7; i++)
        printf("%d ", numbers[i]);
    sort(numbers + 2, 5, sizeof(int), downward);
    for (i = 0; i < 7; i++)
        printf(" %d", numbers[i]);
    puts("");
    sort(texts, 5, sizeof *texts, &by_text);
    for (i = 0; i < 5; i++)
        printf("[%s]", texts[i]);
    puts("");
    for (k = 0; k < 2; k++) {
        sort(people, 4, sizeof(struct person), orders[k]);
        for (i = 0; i < 4; i++)
            printf("%s %d%c", people[i].name, people[i].age, i < 3 ? ',' : '\n');
    }
    return orders[1](people, people + 1) < 0;
}
