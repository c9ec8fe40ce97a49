#include <stdio.h>
#include <stdlib.h>

/* numbers as Elias gamma codes in a buffer of bits */
struct bits {
    unsigned char *bytes;
    unsigned long used, read, room;
};

static void put(struct bits *b, int bit)
{
    if (b->used == 8 * b->room) {
        unsigned char *larger = calloc(2 * b->room, 1);
        unsigned long i;
        for (i = 0; i < b->room; i++)
            larger[i] = b->bytes[i];
        free(b->bytes);
        b->bytes = larger;
        b->room *= 2;
    }
    b->bytes[b->used / 8] |= bit << b->used % 8;
    b->used++;
}

static int get(struct bits *b)
{
    int bit = b->bytes[b->read / 8] >> b->read % 8 & 1;
    b->read++;
    return bit;
}

static void put_number(struct bits *b, unsigned n)
{
    int width = 0;
    while (n >> width > 1) {
        put(b, 0);
        width++;
    }
    for (; width >= 0; width--)
        put(b, n >> width & 1);
}

static unsigned get_number(struct bits *b)
{
    int width = 0;
    unsigned n = 1;
    while (!get(b))
        width++;
    while (width-- > 0)
        n = n << 1 | (unsigned)get(b);
    return n;
}

int main(void)
{
    struct bits b = {NULL, 0, 0, 2};
    unsigned given[] = {1, 2, 3, 10, 255, 256, 65535, 4294967295u, 7}, i, sum = 0;
    b.bytes = calloc(b.room, 1);
    for (i = 0; i < sizeof given / sizeof given[0]; i++)
        put_number(&b, given[i]);
    printf("%lu of %lu\n", b.used, 8 * b.room);
    for (i = 0; i < (b.used + 7) / 8; i++)
        sum = sum * 131 + b.bytes[i];
    printf("%x\n", sum);
    while (b.read < b.used)
        printf("%u ", get_number(&b));
    puts("");
    free(b.bytes);
    return (int)b.room;
}
