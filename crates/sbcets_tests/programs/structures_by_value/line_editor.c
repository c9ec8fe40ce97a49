#include <stdio.h>
#include <stdlib.h>
#include <string.h>

/* lines in an array that grows, with commands: a appends, i N puts before, d N drops, s N X Y changes, u undoes,
   p prints */
struct text {
    char **lines;
    int count;
};

static struct text now, before;

static char *copied(const char *s)
{
    return strcpy(malloc(strlen(s) + 1), s);
}

static void clear(struct text *t)
{
    while (t->count > 0)
        free(t->lines[--t->count]);
    free(t->lines);
    t->lines = NULL;
}

static void keep(void)
{
    int i;
    clear(&before);
    before.lines = malloc((now.count + 1) * sizeof(char *));
    for (i = 0; i < now.count; i++)
        before.lines[i] = copied(now.lines[i]);
    before.count = now.count;
}

static void put(int at, const char *s)
{
    now.lines = realloc(now.lines, (now.count + 1) * sizeof(char *));
    memmove(&now.lines[at + 1], &now.lines[at], (now.count - at) * sizeof(char *));
    now.lines[at] = copied(s);
    now.count++;
}

static void drop(int at)
{
    free(now.lines[at]);
    now.count--;
    memmove(&now.lines[at], &now.lines[at + 1], (now.count - at) * sizeof(char *));
}

static void change(int at, char from, char to)
{
    char *p = now.lines[at];
    while ((p = strchr(p, from)) != NULL)
        *p++ = to;
}

static int read_line(char *to, int room)
{
    int c, n = 0;
    while ((c = getchar()) != EOF && c != '\n')
        if (n < room - 1)
            to[n++] = c;
    to[n] = '\0';
    return c != EOF || n > 0;
}

int main(void)
{
    char command[24];
    int i, errors = 0;
    while (read_line(command, sizeof command)) {
        int at = command[1] ? command[2] - '1' : 0;
        const char *rest = strlen(command) > 4 ? command + 4 : "";
        if (command[0] == 'p') {
            for (i = 0; i < now.count; i++)
                printf("%d %s\n", i + 1, now.lines[i]);
            continue;
        }
        if (command[0] == 'u') {
            struct text t = now;
            now = before;
            before = t;
            continue;
        }
        if (command[0] == 'a') {
            keep();
            put(now.count, command + 2);
        } else if (at < 0 || at >= now.count || !strchr("ids", command[0]))
            errors++;
        else {
            keep();
            switch (command[0]) {
            case 'i': put(at, rest); break;
            case 'd': drop(at); break;
            case 's': change(at, rest[0], rest[2]); break;
            }
        }
    }
    clear(&now);
    clear(&before);
    printf("%d errors\n", errors);
    return errors;
}
