#include <stdio.h>
#include <stdlib.h>
#include <string.h>

/* texts that are shared, and freed with the last that holds them */
struct text { int holders; size_t length; char *letters; };
struct rope { struct text *text; struct rope *left, *right; int holders; };

static int texts, ropes;

static struct text *text(const char *s)
{
    struct text *t = malloc(sizeof *t);
    t->holders = 1;
    t->length = strlen(s);
    t->letters = malloc(t->length + 1);
    strcpy(t->letters, s);
    texts++;
    return t;
}

static struct rope *leaf(struct text *t)
{
    struct rope *r = malloc(sizeof *r);
    r->text = t;
    t->holders++;
    r->left = r->right = NULL;
    r->holders = 1;
    ropes++;
    return r;
}

static struct rope *hold(struct rope *r)
{
    r->holders++;
    return r;
}

static struct rope *join(struct rope *left, struct rope *right)
{
    struct rope *r = malloc(sizeof *r);
    r->text = NULL;
    r->left = hold(left);
    r->right = hold(right);
    r->holders = 1;
    ropes++;
    return r;
}

static void let_go_of_text(struct text *t)
{
    if (--t->holders == 0) {
        free(t->letters);
        free(t);
        texts--;
    }
}

static void let_go(struct rope *r)
{
    if (--r->holders > 0)
        return;
    if (r->text)
        let_go_of_text(r->text);
    else {
        let_go(r->left);
        let_go(r->right);
    }
    free(r);
    ropes--;
}

static size_t length(const struct rope *r)
{
    return r->text ? r->text->length : length(r->left) + length(r->right);
}

static char *write(const struct rope *r, char *to)
{
    if (!r->text)
        return write(r->right, write(r->left, to));
    memcpy(to, r->text->letters, r->text->length);
    return to + r->text->length;
}

int main(void)
{
    struct text *ab = text("ab"), *c = text("-");
    struct rope *r = leaf(ab), *dash = leaf(c), *joined;
    char *flat;
    int i;
    let_go_of_text(ab);
    let_go_of_text(c);
    for (i = 0; i < 4; i++) {
        struct rope *middle = join(dash, r);
        joined = join(r, middle);
        let_go(middle);
        let_go(r);
        r = joined;
    }
    let_go(dash);
    printf("%d texts, %d ropes\n", texts, ropes);
    flat = malloc(length(r) + 1);
    *write(r, flat) = '\0';
    printf("%lu %s\n", length(r), flat);
    free(flat);
    let_go(r);
    printf("%d %d\n", texts, ropes);
    return texts + ropes;
}
