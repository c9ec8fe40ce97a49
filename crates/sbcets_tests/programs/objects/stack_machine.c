#include <stdio.h>

void number(long n)
{
    char digits[24];
    int count = 0;
    if (n < 0) {
        putchar('-');
        n = -n;
    }
    do {
        digits[count++] = '0' + n % 10;
        n /= 10;
    } while (n > 0);
    while (count > 0)
        putchar(digits[--count]);
}
void field(long n, int behind)
{
    number(n);
    putchar(behind);
}
enum { PUSH, ADD, SUB, MUL, DUP, SWAP, LOAD, STORE, JUMP, JZERO, PRINT, CALL, RET, HALT };

struct machine {
    long stack[16];
    long memory[8];
    int calls[8];
    int top, depth, pc, steps;
};

/* prints factorials of 1 to 12 by a subroutine at 17 */
static const int code[] = {
    PUSH, 1, STORE, 0,
    LOAD, 0, CALL, 17, PRINT,
    LOAD, 0, PUSH, 1, ADD, DUP, JUMP, 34,
    STORE, 1, PUSH, 1, STORE, 2,
    LOAD, 1, JZERO, 43, LOAD, 2, JUMP, 45, HALT, HALT, HALT,
    STORE, 0, PUSH, 13, SUB, JZERO, 56, JUMP, 4,
    JUMP, 57,
    LOAD, 1, MUL, STORE, 2, LOAD, 1, PUSH, 1, JUMP, 60,
    HALT, LOAD, 2, RET,
    SUB, STORE, 1, JUMP, 23
};

void run(struct machine *m)
{
    for (;;) {
        long *top = &m->stack[m->top];
        int op = code[m->pc++];
        m->steps++;
        switch (op) {
        case PUSH: *top = code[m->pc++]; m->top++; break;
        case ADD: top[-2] += top[-1]; m->top--; break;
        case SUB: top[-2] -= top[-1]; m->top--; break;
        case MUL: top[-2] *= top[-1]; m->top--; break;
        case DUP: top[0] = top[-1]; m->top++; break;
        case LOAD: *top = m->memory[code[m->pc++]]; m->top++; break;
        case STORE: m->memory[code[m->pc++]] = top[-1]; m->top--; break;
        case JUMP: m->pc = code[m->pc]; break;
        case JZERO:
            m->top--;
            m->pc = top[-1] == 0 ? code[m->pc] : m->pc + 1;
            break;
        case PRINT: field(top[-1], '\n'); m->top--; break;
        case CALL: m->calls[m->depth++] = m->pc + 1; m->pc = code[m->pc]; break;
        case RET: m->pc = m->calls[--m->depth]; break;
        case HALT: return;
        }
    }
}

int main(void)
{
    struct machine m = {{0}};
    run(&m);
    field(m.steps, '\n');
    return m.top;
}
