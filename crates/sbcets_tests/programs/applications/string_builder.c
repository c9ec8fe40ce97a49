#include <stdio.h>
#include <stdlib.h>
#include <string.h>

struct builder {
    char *text;
    size_t length, room;
};

void start(struct builder *b)
{
    b->room = 8;
    b->length = 0;
    b->text = malloc(b->room);
    b->text[0] = '\0';
}

void need(struct builder *b, size_t more)
{
    while (b->length + more + 1 > b->room)
        b->room *= 2;
    b->text = realloc(b->text, b->room);
}

void add_text(struct builder *b, const char *s)
{
    need(b, strlen(s));
    strcpy(b->text + b->length, s);
    b->length += strlen(s);
}

void add_char(struct builder *b, char c)
{
    char s[2] = {c, '\0'};
    add_text(b, s);
}

void add_number(struct builder *b, long n, int base)
{
    static const char digits[] = "0123456789abcdefghijklmnopqrstuvwxyz";
    char room[70], *p = room + sizeof room - 1;
    unsigned long u = n < 0 ? 0ul - n : n;
    *p = '\0';
    do {
        *--p = digits[u % base];
        u /= base;
    } while (u);
    if (n < 0)
        *--p = '-';
    add_text(b, p);
}

/* %t a text, %n a number, %h one to the base 16; what is put in stands in the lists */
void add_form(struct builder *b, const char *form, const char **texts, const long *numbers)
{
    const char *percent;
    while ((percent = strchr(form, '%')) != NULL) {
        for (; form < percent; form++)
            add_char(b, *form);
        switch (form[1]) {
        case 't': add_text(b, *texts++); break;
        case 'n': add_number(b, *numbers++, 10); break;
        case 'h': add_number(b, *numbers++, 16); break;
        default: add_char(b, form[1]);
        }
        form += 2;
    }
    add_text(b, form);
}

int main(void)
{
    struct builder b;
    const char *texts[] = {"Ada", "a long name that makes it grow"};
    long numbers[] = {36, -255, 9223372036854775807, -9223372036854775807 - 1};
    start(&b);
    add_form(&b, "%t is %n%% of %h; ", texts, numbers);
    add_form(&b, "%t", texts + 1, NULL);
    puts(b.text);
    b.length = 0;
    add_form(&b, "%n|%h|%n|", NULL, numbers + 2 - 1);
    add_number(&b, 1679615, 36);
    add_number(&b, -5, 2);
    puts(b.text);
    printf("%lu %lu\n", b.length, b.room);
    free(b.text);
    return (int)b.length;
}
