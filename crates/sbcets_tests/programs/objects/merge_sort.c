#include <stdio.h>

void number(long n)
{
    char digits[24];
    int count = 0;
    if (n < 0) {
        putchar('-');
        n = -n;
    }
    do {
        digits[count++] = '0' + n % 10;
        n /= 10;
    } while (n > 0);
    while (count > 0)
        putchar(digits[--count]);
}
void field(long n, int behind)
{
    number(n);
    putchar(behind);
}
void merge(long *into, long *a, int na, long *b, int nb)
{
    long *a_end = a + na, *b_end = b + nb;
    while (a != a_end || b != b_end)
        if (b == b_end || (a != a_end && *a <= *b))
            *into++ = *a++;
        else
            *into++ = *b++;
}

void sort(long *numbers, long *spare, int n)
{
    int half = n / 2, i;
    if (n < 2)
        return;
    sort(numbers, spare, half);
    sort(numbers + half, spare + half, n - half);
    merge(spare, numbers, half, numbers + half, n - half);
    for (i = 0; i < n; i++)
        numbers[i] = spare[i];
}

int main(void)
{
    long numbers[300], spare[300];
    unsigned long x = 88172645463325252ul;
    int i, unordered = 0;
    for (i = 0; i < 300; i++) {
        x ^= x << 13;
        x ^= x >> 7;
        x ^= x << 17;
        numbers[i] = (long)(x >> 1) * (i % 5 ? 1 : -1);
    }
    sort(numbers, spare, 300);
    for (i = 0; i + 1 < 300; i++)
        unordered += numbers[i] > numbers[i + 1];
    for (i = 0; i < 300; i += 99)
        field(numbers[i], '\n');
    field(unordered, '\n');
    return 0;
}
