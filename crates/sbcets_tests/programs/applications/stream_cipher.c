#include <stdio.h>
#include <stdlib.h>
#include <string.h>

struct cipher {
    unsigned char state[256];
    unsigned char i, j;
};

static void swap(unsigned char *a, unsigned char *b)
{
    unsigned char t = *a;
    *a = *b;
    *b = t;
}

struct cipher *keyed(const char *key)
{
    struct cipher *c = malloc(sizeof *c);
    size_t n = strlen(key);
    unsigned i, j = 0;
    for (i = 0; i < sizeof c->state; i++)
        c->state[i] = i;
    for (i = 0; i < 256; i++) {
        j = (j + c->state[i] + (unsigned char)key[i % n]) & 255;
        swap(&c->state[i], &c->state[j]);
    }
    c->i = c->j = 0;
    return c;
}

int next(struct cipher *c)
{
    c->j += c->state[++c->i];
    swap(c->state + c->i, c->state + c->j);
    return c->state[(c->state[c->i] + c->state[c->j]) & 255];
}

unsigned char *ciphered(const unsigned char *text, size_t n, const char *key)
{
    struct cipher *c = keyed(key);
    unsigned char *out = malloc(n);
    size_t i;
    for (i = 0; i < n; i++)
        out[i] = text[i] ^ next(c);
    free(c);
    return out;
}

void hex(const unsigned char *bytes, size_t n)
{
    while (n-- > 0) {
        printf("%x%x", *bytes >> 4, *bytes & 15u);
        bytes++;
    }
    puts("");
}

int main(void)
{
    static const char *const rows[][2] = {{"Key", "Plaintext"}, {"Wiki", "pedia"}, {"Secret", "Attack at dawn"}};
    int i, same = 0;
    for (i = 0; i < 3; i++) {
        const char *text = rows[i][1];
        size_t n = strlen(text);
        unsigned char *secret = ciphered((const unsigned char *)text, n, rows[i][0]);
        unsigned char *clear = ciphered(secret, n, rows[i][0]);
        hex(secret, n);
        same += memcmp(clear, text, n) == 0 && memcmp(secret, clear, n) != 0;
        free(secret);
        free(clear);
    }
    return same;
}
