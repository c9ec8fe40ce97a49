#include <stdio.h>
#include <stdlib.h>
#include <string.h>

/* a text with a gap where it is changed */
struct buffer { char *text; size_t room, gap, end; };

static void start(struct buffer *b, size_t room)
{
    b->text = malloc(room);
    b->room = b->end = room;
    b->gap = 0;
}

static void go(struct buffer *b, size_t to)
{
    if (to < b->gap) {
        size_t n = b->gap - to;
        memmove(b->text + b->end - n, b->text + to, n);
        b->gap -= n;
        b->end -= n;
    } else {
        size_t n = to - b->gap;
        memmove(b->text + b->gap, b->text + b->end, n);
        b->gap += n;
        b->end += n;
    }
}

static void put(struct buffer *b, char c)
{
    if (b->gap == b->end) {
        size_t behind = b->room - b->end, room = 2 * b->room;
        char *text = malloc(room);
        memcpy(text, b->text, b->gap);
        memcpy(text + room - behind, b->text + b->end, behind);
        free(b->text);
        b->text = text;
        b->room = room;
        b->end = room - behind;
    }
    b->text[b->gap++] = c;
}

static void show(const struct buffer *b)
{
    size_t i;
    for (i = 0; i < b->gap; i++)
        putchar(b->text[i]);
    putchar('|');
    for (i = b->end; i < b->room; i++)
        putchar(b->text[i]);
    puts("");
}

int main(void)
{
    struct buffer b;
    int c, commands = 0;
    start(&b, 4);
    while ((c = getchar()) != EOF)
        switch (c) {
        case '<': go(&b, b.gap > 0 ? b.gap - 1 : 0); commands++; break;
        case '>': if (b.end < b.room) go(&b, b.gap + 1); commands++; break;
        case '^': go(&b, 0); commands++; break;
        case '$': go(&b, b.gap + (b.room - b.end)); commands++; break;
        case '~': if (b.gap > 0) b.gap--; commands++; break;
        case '\n': show(&b); break;
        default: put(&b, c);
        }
    printf("%lu of %lu\n", b.gap + b.room - b.end, b.room);
    free(b.text);
    return commands;
}
