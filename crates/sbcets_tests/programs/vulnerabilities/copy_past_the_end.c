#include <stdio.h>
#include <stdlib.h>
#include <string.h>

struct buffer { size_t size; unsigned char *bytes; };

void fill(struct buffer *b, const void *from, size_t n)
{
    memcpy(b->bytes, from, n);
}

int main(void)
{
    struct buffer b;
    long numbers[2] = {8, 9};
    b.size = sizeof numbers[0];
    b.bytes = malloc(b.size);
    fill(&b, numbers, b.size);
    printf("%d", b.bytes[0]);
    fill(&b, numbers, sizeof numbers);
    printf("%d", b.bytes[0]);
    free(b.bytes);
    return 0;
}
