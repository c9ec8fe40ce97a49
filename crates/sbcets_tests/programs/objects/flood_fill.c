#include <stdio.h>

void number(long n)
{
    char digits[24];
    int count = 0;
    if (n < 0) {
        putchar('-');
        n = -n;
    }
    do {
        digits[count++] = '0' + n % 10;
        n /= 10;
    } while (n > 0);
    while (count > 0)
        putchar(digits[--count]);
}
void field(long n, int behind)
{
    number(n);
    putchar(behind);
}
#define W 12
#define H 6

static char picture[H * W + 1] =
    "..##....#..."
    ".#..#..##..."
    ".#..#.#.#.##"
    "..##..#.#.#."
    "......##..#."
    "###.......##";

/* fills the region of the place, by a stack of pointers, and gives its size */
int fill(char *from, char with)
{
    char *waiting[H * W * 2], old = *from;
    int count = 0, filled = 0;
    waiting[count++] = from;
    while (count > 0) {
        char *p = waiting[--count];
        int at = p - picture;
        if (*p != old)
            continue;
        *p = with;
        filled++;
        if (at % W > 0)
            waiting[count++] = p - 1;
        if (at % W < W - 1)
            waiting[count++] = p + 1;
        if (at >= W)
            waiting[count++] = p - W;
        if (at + W < W * H)
            waiting[count++] = p + W;
    }
    return filled;
}

int main(void)
{
    char *p, letter = 'a';
    int largest = 0, i;
    for (p = picture; *p; p++)
        if (*p == '.') {
            int size = fill(p, letter++);
            field(size, ' ');
            if (size > largest)
                largest = size;
        }
    putchar('\n');
    for (i = 0; i < H * W; i++) {
        putchar(picture[i]);
        if ((i + 1) % W == 0)
            putchar('\n');
    }
    return largest;
}
