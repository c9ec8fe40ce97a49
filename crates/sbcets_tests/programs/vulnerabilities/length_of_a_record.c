#include <stdio.h>
#include <string.h>

static const unsigned char records[] = {1, 2, 'h', 'i', 2, 3, 'a', 'b', 'c', 3, 9, 'x'};

int main(void)
{
    const unsigned char *p = records, *end = records + sizeof records;
    char text[16];
    int count = 0;
    while (p < end) {
        if (count++ == 2)
            puts("");
        memcpy(text, p + 2, p[1]);
        text[p[1]] = '\0';
        printf("%d:%s ", p[0], text);
        p += 2 + p[1];
    }
    return count;
}
