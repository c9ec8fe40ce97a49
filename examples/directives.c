/* Prints Hi, status 8: comments, a header, macros and a conditional. */
#include <limits.h>
#define H 72
#define I 0x69 // 105
#ifdef QUIET
int main(void) { return 0; }
#else
int main(void) {
    putchar(H);
    putchar(I);
    return CHAR_BIT;
}
#endif
