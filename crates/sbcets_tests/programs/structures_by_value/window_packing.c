#include <stdio.h>
#include <stdlib.h>
#include <string.h>

/* packing by matches in what went before: a byte below 128 is so many plain bytes, else a match */
struct bytes { unsigned char *at; size_t count, room; };

static void put(struct bytes *b, int byte)
{
    if (b->count == b->room) {
        b->room = b->room * 2 + 16;
        b->at = realloc(b->at, b->room);
    }
    b->at[b->count++] = byte;
}

static size_t match(const unsigned char *s, size_t at, size_t n, size_t *back)
{
    size_t best = 0, from = at > 255 ? at - 255 : 0;
    for (; from < at; from++) {
        size_t k = 0;
        while (at + k < n && k < 127 && s[from + k] == s[at + k])
            k++;
        if (k > best) {
            best = k;
            *back = at - from;
        }
    }
    return best;
}

static struct bytes packed(const unsigned char *s, size_t n)
{
    struct bytes b = {NULL, 0, 0};
    size_t at = 0, plain = 0, back = 0, i;
    while (at + plain < n || plain) {
        size_t k = at + plain < n ? match(s, at + plain, n, &back) : 4;
        if (k < 4 && plain < 127) {
            plain++;
            continue;
        }
        if (plain) {
            put(&b, (int)plain);
            for (i = 0; i < plain; i++)
                put(&b, s[at++]);
            plain = 0;
        }
        if (k >= 4 && at < n) {
            put(&b, 128 + (int)k);
            put(&b, (int)back);
            at += k;
        }
    }
    return b;
}

static struct bytes unpacked(const struct bytes *p)
{
    struct bytes b = {NULL, 0, 0};
    size_t i = 0, k;
    while (i < p->count) {
        int head = p->at[i++];
        if (head < 128)
            for (k = 0; k < (size_t)head; k++)
                put(&b, p->at[i++]);
        else {
            int back = p->at[i++];
            for (k = 0; k < (size_t)head - 128; k++)
                put(&b, b.at[b.count - back]);
        }
    }
    return b;
}

int main(void)
{
    static const char *const texts[] = {
        "how much wood would a woodchuck chuck if a woodchuck could chuck wood",
        "aaaaaaaaaaaaaaaaaaaaaaaaaaaaaaaaaaaaaaaaaaaaaaaaaaaaaaaaaaaaaaaaaaaaaaaaab", "no match", ""
    };
    unsigned i;
    for (i = 0; i < 4; i++) {
        const unsigned char *s = (const unsigned char *)texts[i];
        size_t n = strlen(texts[i]);
        struct bytes p = packed(s, n), u = unpacked(&p);
        unsigned sum = 0;
        size_t k;
        for (k = 0; k < p.count; k++)
            sum = sum * 31 + p.at[k];
        printf("%lu %lu %u ", n, p.count, sum);
        puts(u.count == n && (n == 0 || memcmp(u.at, s, n) == 0) ? "same" : "other");
        free(p.at);
        free(u.at);
    }
    return 0;
}
