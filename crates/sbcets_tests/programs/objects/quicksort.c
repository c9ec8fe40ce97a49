#include <stdio.h>

void number(long n)
{
    char digits[24];
    int count = 0;
    if (n < 0) {
        putchar('-');
        n = -n;
    }
    do {
        digits[count++] = '0' + n % 10;
        n /= 10;
    } while (n > 0);
    while (count > 0)
        putchar(digits[--count]);
}
void field(long n, int behind)
{
    number(n);
    putchar(behind);
}
void swap(int *a, int *b)
{
    int t = *a;
    *a = *b;
    *b = t;
}

int *median_of_three(int *low, int *high)
{
    int *middle = low + (high - low) / 2;
    if (*low < *middle)
        return *middle < *high ? middle : *low < *high ? high : low;
    return *low < *high ? low : *middle < *high ? high : middle;
}

/* sorts the numbers from low up to high, both included */
void sort(int *low, int *high)
{
    while (low < high) {
        int *l = low, *h = high, pivot = *median_of_three(low, high);
        while (l <= h) {
            while (*l < pivot)
                l++;
            while (*h > pivot)
                h--;
            if (l <= h)
                swap(l++, h--);
        }
        if (h - low < high - l) {
            sort(low, h);
            low = l;
        } else {
            sort(l, high);
            high = h;
        }
    }
}

int main(void)
{
    int numbers[600], i, bad = 0;
    unsigned seed = 2463534242u;
    for (i = 0; i < 600; i++) {
        seed ^= seed << 13;
        seed ^= seed >> 17;
        seed ^= seed << 5;
        numbers[i] = (int)(seed % 2000) - 1000;
    }
    sort(numbers, numbers + 599);
    for (i = 1; i < 600; i++)
        bad += numbers[i - 1] > numbers[i];
    for (i = 0; i < 600; i += 60)
        field(numbers[i], ' ');
    field(numbers[599], '\n');
    return bad;
}
