#include <stdio.h>
#include <stdlib.h>
#include <string.h>

struct message { unsigned char kind; unsigned short length; const unsigned char *payload; };

unsigned char *answer(const struct message *m)
{
    unsigned char *a = malloc(3 + m->length);
    a[0] = m->kind + 1;
    a[1] = m->length & 255;
    a[2] = m->length >> 8;
    memcpy(a + 3, m->payload, m->length);
    return a;
}

int main(void)
{
    struct message m = {1, 4, NULL};
    unsigned char *received = malloc(4), *secret = malloc(16), *a;
    memcpy(received, "ping", 4);
    memcpy(secret, "private key ....", 16);
    m.payload = received;
    a = answer(&m);
    printf("pong %d\n", a[1]);
    free(a);
    m.length = 64;
    a = answer(&m);
    printf("pong %d\n", a[1]);
    return 0;
}
