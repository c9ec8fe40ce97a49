#include <stdio.h>
#include <stdlib.h>
#include <string.h>

/* work that is handed from stage to stage by queues of messages */
struct message { char body[24]; int visits; struct message *next; };
struct queue { struct message *first, **last; int most, count; };
struct stage { const char *name; void (*work)(struct message *); struct queue in; struct stage *then; };

static void upper(struct message *m)
{
    char *p;
    for (p = m->body; *p; p++)
        if (*p >= 'a' && *p <= 'z')
            *p -= 'a' - 'A';
}

static void turned(struct message *m)
{
    size_t n = strlen(m->body), i;
    for (i = 0; i < n / 2; i++) {
        char c = m->body[i];
        m->body[i] = m->body[n - 1 - i];
        m->body[n - 1 - i] = c;
    }
}

static void doubled(struct message *m)
{
    char copy[sizeof m->body];
    strcpy(copy, m->body);
    if (2 * strlen(copy) < sizeof m->body)
        strcat(m->body, copy);
}

static void put(struct queue *q, struct message *m)
{
    m->next = NULL;
    if (!q->first)
        q->last = &q->first;
    *q->last = m;
    q->last = &m->next;
    if (++q->count > q->most)
        q->most = q->count;
}

static struct message *get(struct queue *q)
{
    struct message *m = q->first;
    if (m) {
        q->first = m->next;
        q->count--;
    }
    return m;
}

int main(void)
{
    static const char *const bodies[] = {"ab", "hello there", "Twelve chars", "x", ""};
    struct stage stages[3] = {{"upper", upper, {0}, 0}, {"turned", turned, {0}, 0}, {"doubled", doubled, {0}, 0}};
    struct stage *s;
    struct message *m;
    int i, moved, rounds = 0;
    stages[0].then = &stages[1];
    stages[1].then = &stages[2];
    for (i = 0; i < 5; i++) {
        m = calloc(1, sizeof *m);
        strcpy(m->body, bodies[i]);
        put(&stages[i == 3].in, m);
    }
    do {
        moved = 0;
        for (s = stages + 3; s-- != stages;) {
            m = get(&s->in);
            if (!m)
                continue;
            moved++;
            s->work(m);
            m->visits++;
            if (s->then)
                put(&s->then->in, m);
            else {
                printf("[%s %d]", m->body, m->visits);
                free(m);
            }
        }
        rounds++;
    } while (moved);
    printf("\n%d:", rounds);
    for (i = 0; i < 3; i++)
        printf(" %s %d", stages[i].name, stages[i].in.most);
    puts("");
    return rounds;
}
