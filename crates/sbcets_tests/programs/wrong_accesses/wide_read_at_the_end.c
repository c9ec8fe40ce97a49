#include <stdio.h>

static unsigned char packet[12] = {1, 2, 3, 4, 0, 0, 0, 0, 8, 0, 0, 0};

unsigned int_at(unsigned char *p, int at)
{
    return *(unsigned *)(p + at);
}

int main(void)
{
    unsigned length = int_at(packet, 8);
    putchar('0' + length);
    return int_at(packet, length + 1);
}
