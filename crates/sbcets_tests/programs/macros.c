#include <stdio.h>
#include <stdlib.h>

#define BASE 10
#define DIGIT(n) ('0' + (n) % BASE)
#define MAX(a, b) ((a) > (b) ? (a) : (b))
#define SQUARE(x) ((x) * (x))
#define COMBINED(f, a, b) f(SQUARE(a), SQUARE(b))
#define EMPTY() 0
#define LINE() putchar('\n')

#if defined(BASE) && SQUARE(2) + EMPTY() == 4
#define CHOSEN 1
#elif 1 / 0
#error not read
#else
#define CHOSEN 2
#endif

#if -1 < 0u
#define SIGNED 1
#else
#define SIGNED 0
#endif

void put(unsigned n)
{
    if (n >= BASE)
        put(n / BASE);
    putchar(DIGIT(n));
}

int main(void)
{
    put(MAX(3, MAX(9,
        7)));
    LINE();
    put(COMBINED(MAX, 3 + 1, 5));
    LINE();
    put(CHOSEN);
    put(SIGNED);
    LINE();
#ifdef MAX
#undef MAX
#endif
#define MAX(a) a
    put(MAX(SQUARE)(11));
    LINE();
    return DIGIT(SQUARE(4));
}
