/* A plain C interpreter of RV64IM, against which the speed of the simulator in crates/rv_sim is measured:

       gcc -O2 -o interpreter bench/interpreter.c && ./interpreter

   It has the same four segments, searched at every fetch, load and store, decodes each word anew, and runs the same loop
   of five instructions (LD, ADD, SD, ADDI, BNE). It prints how many instructions ran in a second. The machine's figure
   comes from `Machine::run` on an image of the same words and segments. Nothing here is proved, and no crate uses it. */

#include <stdint.h>
#include <stdio.h>
#include <stdlib.h>
#include <string.h>
#include <time.h>

enum { READ = 4, WRITE = 2, EXECUTE = 1 };

struct segment { uint64_t address, size; unsigned flags; uint8_t *bytes; };

static struct segment segments[] = {
    {0x10000, 4096, EXECUTE, 0},
    {0x100000, 36, EXECUTE, 0},
    {0x10000000, 4096, READ | WRITE, 0},
    {0x40000000, 65536, READ | WRITE, 0},
};

static uint64_t x[32], pc;

/* lui t0,0x1000; lui t2,0x10000; loop: ld t1,0(t2); add t1,t1,t0; sd t1,8(t2); addi t0,t0,-1; bne t0,x0,loop;
   addi a7,x0,93; ecall */
static const uint32_t code[] = {
    0x010002b7, 0x100003b7, 0x0003b303, 0x00530333, 0x0063b423, 0xfff28293, 0xfe0298e3, 0x05d00893, 0x00000073,
};

/* The place of `size` bytes at an address, in the segment that holds the first of them; 0 where that refuses. */
static uint8_t *place(uint64_t address, uint64_t size, unsigned flag) {
    for (unsigned k = 0; k < sizeof segments / sizeof *segments; k++) {
        struct segment *s = &segments[k];
        if (address - s->address < s->size) {
            uint64_t offset = address - s->address;
            return (s->flags & flag) && size <= s->size - offset ? s->bytes + offset : 0;
        }
    }
    return 0;
}

static int64_t sext(uint64_t n, unsigned bits) { return (int64_t)(n << (64 - bits)) >> (64 - bits); }

static int64_t high(int64_t a, int64_t b) { return (__int128)a * b >> 64; }
static uint64_t highu(uint64_t a, uint64_t b) { return (unsigned __int128)a * b >> 64; }
static int64_t highsu(int64_t a, uint64_t b) { return (__int128)a * (unsigned __int128)b >> 64; }

static int64_t quotient(int64_t a, int64_t b) { return b == 0 ? -1 : b == -1 ? (int64_t)(0 - (uint64_t)a) : a / b; }
static int64_t remainder_of(int64_t a, int64_t b) { return b == 0 ? a : b == -1 ? 0 : a % b; }

static int op(uint32_t w, uint64_t a, uint64_t b, uint64_t *r) {
    switch (w >> 25 << 3 | (w >> 12 & 7)) {
    case 0000: *r = a + b; return 1;
    case 0400: *r = a - b; return 1;
    case 0001: *r = a << (b & 63); return 1;
    case 0002: *r = (int64_t)a < (int64_t)b; return 1;
    case 0003: *r = a < b; return 1;
    case 0004: *r = a ^ b; return 1;
    case 0005: *r = a >> (b & 63); return 1;
    case 0405: *r = (int64_t)a >> (b & 63); return 1;
    case 0006: *r = a | b; return 1;
    case 0007: *r = a & b; return 1;
    case 0010: *r = a * b; return 1;
    case 0011: *r = high(a, b); return 1;
    case 0012: *r = highsu(a, b); return 1;
    case 0013: *r = highu(a, b); return 1;
    case 0014: *r = quotient(a, b); return 1;
    case 0015: *r = b == 0 ? ~0ull : a / b; return 1;
    case 0016: *r = remainder_of(a, b); return 1;
    case 0017: *r = b == 0 ? a : a % b; return 1;
    }
    return 0;
}

static int op32(uint32_t w, uint32_t a, uint32_t b, uint64_t *r) {
    switch (w >> 25 << 3 | (w >> 12 & 7)) {
    case 0000: *r = (int32_t)(a + b); return 1;
    case 0400: *r = (int32_t)(a - b); return 1;
    case 0001: *r = (int32_t)(a << (b & 31)); return 1;
    case 0005: *r = (int32_t)(a >> (b & 31)); return 1;
    case 0405: *r = (int32_t)a >> (b & 31); return 1;
    case 0010: *r = (int32_t)(a * b); return 1;
    case 0014: *r = (int32_t)quotient((int32_t)a, (int32_t)b); return 1;
    case 0015: *r = b == 0 ? ~0ull : (uint64_t)(int32_t)(a / b); return 1;
    case 0016: *r = (int32_t)remainder_of((int32_t)a, (int32_t)b); return 1;
    case 0017: *r = (int32_t)(b == 0 ? a : a % b); return 1;
    }
    return 0;
}

static int op_imm(uint32_t w, uint64_t a, uint64_t *r) {
    int64_t imm = (int32_t)w >> 20;
    unsigned amount = w >> 20 & 63;
    switch (w >> 12 & 7) {
    case 0: *r = a + imm; return 1;
    case 1: *r = a << amount; return w >> 26 == 0;
    case 2: *r = (int64_t)a < imm; return 1;
    case 3: *r = a < (uint64_t)imm; return 1;
    case 4: *r = a ^ imm; return 1;
    case 5: *r = w >> 26 ? (uint64_t)((int64_t)a >> amount) : a >> amount; return w >> 26 == 0 || w >> 26 == 16;
    case 6: *r = a | imm; return 1;
    default: *r = a & imm; return 1;
    }
}

static int op_imm32(uint32_t w, uint32_t a, uint64_t *r) {
    unsigned amount = w >> 20 & 31;
    switch (w >> 12 & 7) {
    case 0: *r = (int32_t)(a + ((int32_t)w >> 20)); return 1;
    case 1: *r = (int32_t)(a << amount); return w >> 25 == 0;
    case 5: *r = w >> 25 ? (int32_t)a >> amount : (int32_t)(a >> amount); return w >> 25 == 0 || w >> 25 == 32;
    }
    return 0;
}

static int taken(uint32_t w, uint64_t a, uint64_t b) {
    switch (w >> 12 & 7) {
    case 0: return a == b;
    case 1: return a != b;
    case 4: return (int64_t)a < (int64_t)b;
    case 5: return (int64_t)a >= (int64_t)b;
    case 6: return a < b;
    case 7: return a >= b;
    }
    return -1;
}

static int load(uint32_t w, uint64_t address, uint64_t *r) {
    unsigned kind = w >> 12 & 7, size = 1u << (kind & 3);
    uint8_t *p = kind == 7 ? 0 : place(address, size, READ);
    uint64_t n = 0;
    if (!p) return 0;
    memcpy(&n, p, size);
    *r = kind < 3 ? (uint64_t)sext(n, 8 * size) : n;
    return 1;
}

static int store(uint32_t w, uint64_t address, uint64_t n) {
    unsigned kind = w >> 12 & 7;
    uint8_t *p = kind > 3 ? 0 : place(address, 1u << kind, WRITE);
    if (!p) return 0;
    memcpy(p, &n, 1u << kind);
    return 1;
}

/* One instruction; 0 where it traps or asks the environment. */
static int step(void) {
    uint8_t *p = place(pc, 4, EXECUTE);
    uint32_t w;
    if (!p) return 0;
    memcpy(&w, p, 4);
    uint64_t a = x[w >> 15 & 31], b = x[w >> 20 & 31], r = 0, next = pc + 4;
    unsigned rd = w >> 7 & 31;
    int done = 1;
    switch (w & 127) {
    case 0x37: r = (int32_t)(w & 0xfffff000); break;
    case 0x17: r = pc + (int32_t)(w & 0xfffff000); break;
    case 0x6f:
        r = next;
        next = pc + sext(w >> 31 << 20 | (w >> 12 & 0xff) << 12 | (w >> 20 & 1) << 11 | (w >> 21 & 0x3ff) << 1, 21);
        break;
    case 0x67: r = next; next = (a + ((int32_t)w >> 20)) & ~1ull; done = (w >> 12 & 7) == 0; break;
    case 0x63:
        rd = 0;
        done = taken(w, a, b);
        if (done == 1) next = pc + sext(w >> 31 << 12 | (w >> 7 & 1) << 11 | (w >> 25 & 0x3f) << 5 | (w >> 8 & 0xf) << 1, 13);
        done = done >= 0;
        break;
    case 0x03: done = load(w, a + ((int32_t)w >> 20), &r); break;
    case 0x23: rd = 0; done = store(w, a + sext(w >> 25 << 5 | (w >> 7 & 31), 12), b); break;
    case 0x13: done = op_imm(w, a, &r); break;
    case 0x1b: done = op_imm32(w, a, &r); break;
    case 0x33: done = op(w, a, b, &r); break;
    case 0x3b: done = op32(w, a, b, &r); break;
    case 0x0f: rd = 0; done = (w >> 12 & 7) == 0; break;
    default: done = 0;
    }
    if (!done || (next & 3)) return 0;
    if (rd) x[rd] = r;
    pc = next;
    return 1;
}

int main(void) {
    for (unsigned k = 0; k < sizeof segments / sizeof *segments; k++) {
        segments[k].bytes = calloc(segments[k].size, 1);
        if (!segments[k].bytes) return 1;
    }
    memcpy(segments[1].bytes, code, sizeof code);
    pc = 0x100000;
    struct timespec start, end;
    clock_gettime(CLOCK_MONOTONIC, &start);
    uint64_t count = 0;
    while (step()) count++;
    clock_gettime(CLOCK_MONOTONIC, &end);
    double seconds = end.tv_sec - start.tv_sec + (end.tv_nsec - start.tv_nsec) / 1e9;
    printf("%llu instructions in %.3f s: %.0f million a second, stopped at 0x%llx\n", (unsigned long long)count, seconds,
           count / seconds / 1e6, (unsigned long long)pc);
    return 0;
}
