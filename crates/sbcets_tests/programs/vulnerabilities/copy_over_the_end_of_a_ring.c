#include <stdio.h>
#include <string.h>

static char ring[8];
static size_t head;

void put(const char *s)
{
    size_t n = strlen(s);
    memcpy(ring + head, s, n);
    head = (head + n) % sizeof ring;
}

int main(void)
{
    put("abcdef");
    puts(ring);
    put("ghi");
    puts(ring);
    return 0;
}
