#include <stdio.h>
#include <string.h>

/* letters of one or two bytes; the second byte of the last one is missing */
int letter(const unsigned char *s, int *bytes)
{
    if (s[0] < 0xc0) {
        *bytes = 1;
        return s[0];
    }
    *bytes = 2;
    return (s[0] & 31) << 6 | (s[1] & 63);
}

int main(void)
{
    static const unsigned char text[3] = {0xc3, 0xa4, 0xc3};
    int i = 0, n;
    while (i < 3) {
        printf("%d ", letter(text + i, &n));
        i += n;
    }
    return 0;
}
