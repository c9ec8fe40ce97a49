#include <stdio.h>
#include <stdlib.h>
#include <string.h>

/* formulas to postfix form by tables of operators, and their values with names */
struct operator { char sign; char rank, is_right; long (*apply)(long, long); };

static long plus(long a, long b) { return a + b; }
static long minus(long a, long b) { return a - b; }
static long times(long a, long b) { return a * b; }
static long over(long a, long b) { return b ? a / b : 0; }
static long rest(long a, long b) { return b ? a % b : 0; }

static long power(long a, long b)
{
    long r = 1;
    while (b-- > 0)
        r *= a;
    return r;
}

static const struct operator operators[] = {
    {'+', 1, 0, plus}, {'-', 1, 0, minus}, {'*', 2, 0, times}, {'/', 2, 0, over}, {'%', 2, 0, rest}, {'^', 3, 1, power}
};

struct item { const struct operator *operator; long number; struct item *below; };

static const struct operator *operator_of(char c)
{
    unsigned i;
    for (i = 0; i < sizeof operators / sizeof operators[0]; i++)
        if (operators[i].sign == c)
            return &operators[i];
    return NULL;
}

static void push(struct item **stack, const struct operator *operator, long number)
{
    struct item *it = malloc(sizeof *it);
    it->operator = operator;
    it->number = number;
    it->below = *stack;
    *stack = it;
}

static struct item pop(struct item **stack)
{
    struct item top = **stack;
    free(*stack);
    *stack = top.below;
    return top;
}

static void apply(struct item **values, const struct operator *o)
{
    long b = pop(values).number, a = pop(values).number;
    printf("%c", o->sign);
    push(values, NULL, o->apply(a, b));
}

static long value(const char *s, const long *names)
{
    struct item *values = NULL, *waiting = NULL;
    const struct operator *o;
    for (; *s; s++) {
        if (*s >= 'a' && *s <= 'z') {
            putchar(*s);
            push(&values, NULL, names[*s - 'a']);
        } else if (*s >= '0' && *s <= '9') {
            putchar(*s);
            push(&values, NULL, *s - '0');
        } else if (*s == '(')
            push(&waiting, NULL, 0);
        else if (*s == ')') {
            while (waiting->operator)
                apply(&values, pop(&waiting).operator);
            pop(&waiting);
        } else if ((o = operator_of(*s)) != NULL) {
            while (waiting && waiting->operator && waiting->operator->rank >= o->rank + o->is_right)
                apply(&values, pop(&waiting).operator);
            push(&waiting, o, 0);
        }
    }
    while (waiting)
        apply(&values, pop(&waiting).operator);
    return pop(&values).number;
}

int main(void)
{
    long names[26] = {0};
    int i;
    for (i = 0; i < 26; i++)
        names[i] = i * i;
    printf(" %ld\n", value("1+2*3-4", names));
    printf(" %ld\n", value("(c+d)*(e-b)", names));
    printf(" %ld\n", value("2^3^2/(7%4)", names));
    printf(" %ld\n", value("z-y-x-((w))", names));
    return (int)value("9/0+3", names);
}
