#include <stdio.h>
#include <string.h>

/* SHA-1 (FIPS 180) of the input's lines */
struct hash {
    unsigned state[5];
    unsigned char block[64];
    unsigned long length;
};

static unsigned turned(unsigned x, int by)
{
    return x << by | x >> (32 - by);
}

static void mix(unsigned *state, const unsigned char *block)
{
    unsigned w[80], a = state[0], b = state[1], c = state[2], d = state[3], e = state[4];
    int i;
    for (i = 0; i < 16; i++, block += 4)
        w[i] = (unsigned)block[0] << 24 | block[1] << 16 | block[2] << 8 | block[3];
    for (; i < 80; i++)
        w[i] = turned(w[i - 3] ^ w[i - 8] ^ w[i - 14] ^ w[i - 16], 1);
    for (i = 0; i < 80; i++) {
        unsigned f, k, t;
        if (i < 20) {
            f = (b & c) | (~b & d);
            k = 0x5a827999;
        } else if (i < 40) {
            f = b ^ c ^ d;
            k = 0x6ed9eba1;
        } else if (i < 60) {
            f = (b & c) | (b & d) | (c & d);
            k = 0x8f1bbcdc;
        } else {
            f = b ^ c ^ d;
            k = 0xca62c1d6;
        }
        t = turned(a, 5) + f + e + k + w[i];
        e = d;
        d = c;
        c = turned(b, 30);
        b = a;
        a = t;
    }
    state[0] += a;
    state[1] += b;
    state[2] += c;
    state[3] += d;
    state[4] += e;
}

static void start(struct hash *h)
{
    static const unsigned first[5] = {0x67452301, 0xefcdab89, 0x98badcfe, 0x10325476, 0xc3d2e1f0};
    memcpy(h->state, first, sizeof first);
    h->length = 0;
}

static void add(struct hash *h, int byte)
{
    h->block[h->length++ % 64] = byte;
    if (h->length % 64 == 0)
        mix(h->state, h->block);
}

static void end(struct hash *h)
{
    unsigned long bits = 8 * h->length;
    int i;
    add(h, 0x80);
    while (h->length % 64 != 56)
        add(h, 0);
    for (i = 56; i >= 0; i -= 8)
        add(h, (int)(bits >> i & 255));
}

static void show(const struct hash *h)
{
    int i, k;
    for (i = 0; i < 5; i++)
        for (k = 28; k >= 0; k -= 4)
            printf("%x", h->state[i] >> k & 15);
    puts("");
}

int main(void)
{
    struct hash h;
    int c, lines = 0;
    start(&h);
    while ((c = getchar()) != EOF) {
        if (c != '\n') {
            add(&h, c);
            continue;
        }
        end(&h);
        show(&h);
        start(&h);
        lines++;
    }
    return lines;
}
