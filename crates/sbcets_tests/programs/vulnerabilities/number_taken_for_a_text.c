#include <stdio.h>

enum kind { NUMBER, TEXT };

struct value {
    enum kind kind;
    union { long number; const char *text; } as;
};

void show(const struct value *v)
{
    if (v->kind == TEXT)
        printf("'%s' ", v->as.text);
    else
        printf("%ld ", v->as.number);
}

int main(void)
{
    struct value v[2] = {{TEXT, {0}}, {NUMBER, {0}}};
    v[0].as.text = "abc";
    v[1].as.number = 0x10000000;
    show(&v[0]);
    v[1].kind = TEXT;
    show(&v[1]);
    return 0;
}
