#include <stdio.h>

void number(long n)
{
    char digits[21], *p = &digits[20];
    int negative = n < 0;
    *p = 0;
    do {
        int d = n % 10;
        *--p = '0' + (d < 0 ? -d : d);
        n /= 10;
    } while (n != 0);
    if (negative)
        *--p = '-';
    while (*p)
        putchar(*p++);
}
void field(long n, int behind)
{
    number(n);
    putchar(behind);
}
void text(const char *s)
{
    int i;
    for (i = 0; s[i] != '\0'; i++)
        putchar(s[i]);
}
enum state { WAITING, RUNNING, DONE };

struct task {
    char name[6];
    unsigned char state;
    int left;
    struct { int turns; long spent; } used;
};

struct task tasks[4] = {
    {"read", WAITING, 5, {0, 0}},
    {"parse", WAITING, 12, {0, 0}},
    {"sum", WAITING, 3, {0, 0}},
    {.name = "print", .left = 8}
};

struct task *deque[8];
int first, count;

void push_back(struct task *t)
{
    deque[(first + count++) & 7] = t;
}

void push_front(struct task *t)
{
    first = (first + 7) & 7;
    deque[first] = t;
    count++;
}

struct task *pop_front(void)
{
    struct task *t = deque[first];
    first = (first + 1) & 7;
    count--;
    return t;
}

void work(struct task *t, int slice)
{
    int now = t->left < slice ? t->left : slice;
    t->state = RUNNING;
    t->left -= now;
    t->used.turns++;
    t->used.spent += (long)now * 1000000007;
    if (t->left == 0)
        t->state = DONE;
    else if (t->left == 1)
        push_front(t);
    else
        push_back(t);
}

int main(void)
{
    struct task *t;
    int i, turns = 0;
    for (i = 0; i < 4; i++)
        push_back(&tasks[i]);
    while (count > 0) {
        t = pop_front();
        work(t, 4);
        text(t->name);
        putchar(t->state == DONE ? '!' : ' ');
        turns++;
    }
    putchar('\n');
    for (t = tasks; t < tasks + 4; t++) {
        field(t->used.turns, ' ');
        field(t->used.spent, '\n');
    }
    return turns;
}
