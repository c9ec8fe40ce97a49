#include <stdio.h>

void number(long n)
{
    char digits[24];
    int count = 0;
    if (n < 0) {
        putchar('-');
        n = -n;
    }
    do {
        digits[count++] = '0' + n % 10;
        n /= 10;
    } while (n > 0);
    while (count > 0)
        putchar(digits[--count]);
}
void field(long n, int behind)
{
    number(n);
    putchar(behind);
}
struct entry {
    short key;
    char mark;
};

int is_before(struct entry *a, struct entry *b)
{
    return a->key < b->key || (a->key == b->key && a->mark < b->mark);
}

void swap(struct entry *a, struct entry *b)
{
    short key = a->key;
    char mark = a->mark;
    a->key = b->key;
    a->mark = b->mark;
    b->key = key;
    b->mark = mark;
}

void sift(struct entry *heap, int at, int count)
{
    for (;;) {
        int child = 2 * at + 1;
        if (child >= count)
            return;
        if (child + 1 < count && is_before(&heap[child], &heap[child + 1]))
            child++;
        if (!is_before(&heap[at], heap + child))
            return;
        swap(heap + at, heap + child);
        at = child;
    }
}

void sort(struct entry *heap, int count)
{
    int i;
    for (i = count / 2; i-- > 0;)
        sift(heap, i, count);
    while (--count > 0) {
        swap(&heap[0], &heap[count]);
        sift(heap, 0, count);
    }
}

int main(void)
{
    struct entry e[26];
    int i, sum = 0;
    for (i = 0; i < 26; i++) {
        e[i].key = i * 11 % 13 * 100 - 600;
        e[i].mark = 'a' + i;
    }
    sort(e, 26);
    for (i = 0; i < 26; i++) {
        putchar(e[i].mark);
        sum += i * e[i].key;
    }
    putchar('\n');
    for (i = 0; i < 26; i += 5)
        field(e[i].key, ' ');
    field(sum, '\n');
    return sizeof(struct entry);
}
