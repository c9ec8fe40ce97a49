#include <stdio.h>
#include <stdlib.h>
#include <string.h>

/* records in bytes: a kind, a length, and what the kind says; written, checked and read again */
enum { POINT = 1, NAME = 2, PATH = 3 };

struct record {
    int kind;
    union { struct { int x, y; } point; char *name; struct { int count; short *steps; } path; } of;
};

static unsigned char *put_number(unsigned char *p, unsigned n, int bytes)
{
    while (bytes-- > 0) {
        *p++ = n & 255;
        n >>= 8;
    }
    return p;
}

static const unsigned char *get_number(const unsigned char *p, int bytes, int *n)
{
    unsigned u = 0;
    int i;
    for (i = 0; i < bytes; i++)
        u |= (unsigned)*p++ << 8 * i;
    *n = bytes == 2 ? (short)u : (int)u;
    return p;
}

static unsigned char *put(unsigned char *p, const struct record *r)
{
    unsigned char *length = p + 1;
    int i;
    *p = r->kind;
    p += 2;
    switch (r->kind) {
    case POINT:
        p = put_number(p, r->of.point.x, 4);
        p = put_number(p, r->of.point.y, 4);
        break;
    case NAME:
        memcpy(p, r->of.name, strlen(r->of.name));
        p += strlen(r->of.name);
        break;
    case PATH:
        for (i = 0; i < r->of.path.count; i++)
            p = put_number(p, r->of.path.steps[i], 2);
        break;
    }
    *length = p - length - 1;
    return p;
}

static const unsigned char *get(const unsigned char *p, const unsigned char *end, struct record *r)
{
    const unsigned char *stop;
    int i;
    if (end - p < 2 || end - p - 2 < p[1])
        return NULL;
    r->kind = *p;
    stop = p + 2 + p[1];
    p += 2;
    if (r->kind == POINT) {
        p = get_number(p, 4, &r->of.point.x);
        get_number(p, 4, &r->of.point.y);
    } else if (r->kind == NAME) {
        r->of.name = calloc(stop - p + 1, 1);
        memcpy(r->of.name, p, stop - p);
    } else if (r->kind == PATH) {
        r->of.path.count = (int)(stop - p) / 2;
        r->of.path.steps = malloc(r->of.path.count * sizeof(short));
        for (i = 0; p < stop; i++) {
            int n;
            p = get_number(p, 2, &n);
            r->of.path.steps[i] = n;
        }
    } else
        return NULL;
    return stop;
}

static void show(struct record *r)
{
    int i;
    switch (r->kind) {
    case POINT: printf("(%d,%d)\n", r->of.point.x, r->of.point.y); break;
    case NAME: printf("%s\n", r->of.name); free(r->of.name); break;
    default:
        for (i = 0; i < r->of.path.count; i++)
            printf("%d%c", r->of.path.steps[i], i + 1 < r->of.path.count ? ' ' : '\n');
        free(r->of.path.steps);
    }
}

int main(void)
{
    short steps[] = {-1, 300, -32768};
    struct record r[3] = {{POINT, {{-7, 70000}}}, {NAME, {{0, 0}}}, {PATH, {{0, 0}}}}, back;
    unsigned char *bytes = malloc(64), *end = bytes;
    const unsigned char *p;
    int i, count = 0;
    unsigned sum = 0;
    r[1].of.name = "a name";
    r[2].of.path.count = 3;
    r[2].of.path.steps = steps;
    for (i = 0; i < 3; i++)
        end = put(end, r + i);
    for (p = bytes; p < end; p++)
        sum = sum * 33 ^ *p;
    printf("%d bytes, %x\n", (int)(end - bytes), sum);
    for (p = bytes; (p = get(p, end, &back)) != NULL; count++)
        show(&back);
    bytes[1] = 200;
    printf("%d %d\n", count, get(bytes, end, &back) == NULL);
    free(bytes);
    return count;
}
