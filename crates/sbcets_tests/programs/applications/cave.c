#include <stdio.h>
#include <string.h>

/* an adventure: rooms with ways, things that are taken and put down */
enum { NORTH, SOUTH, EAST, WEST, WAYS };

struct room {
    const char *name;
    struct room *ways[WAYS];
};

struct thing {
    const char *name;
    struct room *where;
};

static struct room hall, cellar, garden;
static struct room hall = {"hall", {NULL, &cellar, &garden, NULL}};
static struct room cellar = {"cellar", {&hall, NULL, NULL, NULL}};
static struct room garden = {"garden", {NULL, NULL, NULL, &hall}};
static struct room bag = {"bag", {NULL, NULL, NULL, NULL}};

static struct thing things[] = {{"lamp", &hall}, {"key", &garden}, {"gold", NULL}};
static struct room *here = &hall;
static int score, turns;

static struct thing *find(const char *name, struct room *where)
{
    unsigned i;
    for (i = 0; i < sizeof things / sizeof things[0]; i++)
        if (things[i].where == where && !strcmp(things[i].name, name))
            return &things[i];
    return NULL;
}

static void look(void)
{
    unsigned i;
    printf("%s", here->name);
    for (i = 0; i < sizeof things / sizeof things[0]; i++)
        if (things[i].where == here)
            printf(" +%s", things[i].name);
    puts("");
}

static void go(int way)
{
    struct room *to = here->ways[way];
    if (!to) {
        puts("no way");
        return;
    }
    here = to;
    look();
}

static void open_chest(void)
{
    if (here == &cellar && find("key", &bag) && find("lamp", &bag)) {
        things[2].where = here;
        puts("gold!");
        score += 10;
    } else
        puts("it stays shut");
}

static int obey(const char *verb, const char *noun)
{
    static const char ways[] = "nsew";
    const char *way = strlen(verb) == 1 ? strchr(ways, verb[0]) : NULL;
    struct thing *t;
    turns++;
    if (way)
        go((int)(way - ways));
    else if (!strcmp(verb, "take") && (t = find(noun, here)) != NULL) {
        t->where = &bag;
        score++;
    } else if (!strcmp(verb, "drop") && (t = find(noun, &bag)) != NULL)
        t->where = here;
    else if (!strcmp(verb, "open"))
        open_chest();
    else if (!strcmp(verb, "look"))
        look();
    else if (!strcmp(verb, "quit"))
        return 0;
    else
        printf("what is '%s %s'?\n", verb, noun);
    return 1;
}

static int read_word(char *to, int room, int *end)
{
    int c, n = 0;
    while ((c = getchar()) != EOF && c != ' ' && c != '\n')
        if (n + 1 < room)
            to[n++] = c;
    to[n] = 0;
    *end = c;
    return n;
}

int main(void)
{
    char verb[6], noun[6];
    int end;
    do {
        noun[0] = '\0';
        if (read_word(verb, sizeof verb, &end) == 0)
            break;
        while (end == ' ')
            read_word(noun, sizeof noun, &end);
    } while (obey(verb, noun));
    printf("%d points in %d turns\n", score, turns);
    return score;
}
