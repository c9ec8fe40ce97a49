#include <stdio.h>
#include <stdlib.h>
#include <string.h>

/* a whole search with a table of positions that were judged before */
struct position {
    char cells[10];
    signed char value;
    struct position *next;
};

static struct position *table[97];
static int known, found_again;

static int winner(const char *c)
{
    static const char lines[8][3] = {
        {0, 1, 2}, {3, 4, 5}, {6, 7, 8}, {0, 3, 6}, {1, 4, 7}, {2, 5, 8}, {0, 4, 8}, {2, 4, 6}
    };
    int i;
    for (i = 0; i < 8; i++) {
        const char *l = lines[i];
        if (c[(int)l[0]] != '.' && c[(int)l[0]] == c[(int)l[1]] && c[(int)l[1]] == c[(int)l[2]])
            return c[(int)l[0]];
    }
    return 0;
}

static unsigned slot(const char *c)
{
    unsigned h = 0;
    while (*c)
        h = h * 3 + (*c++ & 3);
    return h % 97;
}

static int value(char *c, char mover, int *best_move)
{
    char other = mover == 'x' ? 'o' : 'x';
    int i, best = -2;
    struct position *p, **at = &table[slot(c)];
    if (winner(c))
        return -1;
    if (!strchr(c, '.'))
        return 0;
    if (!best_move)
        for (p = *at; p; p = p->next)
            if (memcmp(p->cells, c, 9) == 0) {
                found_again++;
                return p->value;
            }
    for (i = 0; i < 9; i++)
        if (c[i] == '.') {
            int v;
            c[i] = mover;
            v = -value(c, other, NULL);
            c[i] = '.';
            if (v > best) {
                best = v;
                if (best_move)
                    *best_move = i;
            }
        }
    p = malloc(sizeof *p);
    strcpy(p->cells, c);
    p->value = best;
    p->next = *at;
    *at = p;
    known++;
    return best;
}

int main(void)
{
    char c[10] = "xo..o..x.";
    char mover = 'x';
    int move = 0, i;
    printf("%d\n", value(c, mover, &move));
    printf("%d %d\n", known, found_again);
    while (!winner(c) && strchr(c, '.')) {
        value(c, mover, &move);
        c[move] = mover;
        mover = mover == 'x' ? 'o' : 'x';
    }
    for (i = 0; i < 9; i += 3)
        printf("%c%c%c\n", c[i], c[i + 1], c[i + 2]);
    for (i = 0; i < 97; i++)
        while (table[i]) {
            struct position *p = table[i];
            table[i] = p->next;
            free(p);
        }
    return winner(c) == 0;
}
