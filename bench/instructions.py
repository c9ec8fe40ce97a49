#!/usr/bin/env python3
"""Counts the instructions that images of programs of integers make on the simulator, over those of the same programs by
riscv64-linux-gnu-gcc -O0 and -O1 (Debian's gcc-riscv64-linux-gnu), whose `putchar`, `getchar` and `exit` make the same
environment calls, and the geometric means of both ratios.

usage: python3 bench/instructions.py [NAME ..]     programs of crates/sbcets_tests/programs, as `queens` or `objects/sieve`
"""

import math
import os
import subprocess
import sys
import tempfile

TOP = os.path.join(os.path.dirname(os.path.realpath(__file__)), "..")
PROGRAMS = f"{TOP}/crates/sbcets_tests/programs"
FIFTEEN = ["ackermann", "calculator", "collatz", "conversions", "crc32", "hanoi", "life", "mandelbrot", "partitions", "powers",
           "queens", "run_lengths", "small_machine", "sorting_network", "wide_product"]
LEVELS = ("-O0", "-O1")
GCC = ["riscv64-linux-gnu-gcc", "-std=c99", "-fwrapv", "-funsigned-char", "-march=rv64im", "-mabi=lp64", "-nostdlib", "-static", "-w",
       "-fno-builtin", "-fno-pic", "-no-pie", "-nostdinc"]
HEADER = "#define EOF (-1)\n#undef NULL\n#define NULL ((void *)0)\nint putchar(int);\nint getchar(void);\nvoid exit(int);\nvoid abort(void);\n"
RUNTIME = r"""
static char stack[1 << 20] __attribute__((aligned(16), used));
static long call(long number, long first, long second, long third)
{
    register long a0 __asm__("a0") = first, a1 __asm__("a1") = second, a2 __asm__("a2") = third, a7 __asm__("a7") = number;
    __asm__ volatile("ecall" : "+r"(a0) : "r"(a1), "r"(a2), "r"(a7) : "memory");
    return a0;
}
int putchar(int c) { unsigned char b = c; call(64, 1, (long)&b, 1); return b; }
int getchar(void) { unsigned char b; return call(63, 0, (long)&b, 1) == 1 ? b : -1; }
void exit(int status) { call(93, status, 0, 0); for (;;); }
void abort(void) { exit(134); }
void *memset(void *to, int c, unsigned long n) { unsigned char *p = to; while (n--) *p++ = c; return to; }
void *memcpy(void *to, const void *from, unsigned long n)
{
    unsigned char *p = to;
    const unsigned char *q = from;
    while (n--)
        *p++ = *q++;
    return to;
}
int main(void);
void run_main(void) { exit(main()); }
__asm__(".globl _start\n_start: .option push\n .option norelax\n la gp, __global_pointer$\n .option pop\n"
        "la sp, stack\n li t0, 1 << 20\n add sp, sp, t0\n j run_main");
"""


def counted(image, given):
    """The instructions of an image's run: the least limit at which it ends by itself."""
    def ends(limit):
        ran = subprocess.run([f"{TOP}/bin/sbcets", "run", image, "--limit", str(limit)], input=given, capture_output=True)
        return b"sbcets: error: limit of" not in ran.stderr
    low, high = 0, 1
    while not ends(high):
        low, high = high, 4 * high
    while low + 1 < high:
        middle = (low + high) // 2
        low, high = (low, middle) if ends(middle) else (middle, high)
    return high


def input_of(name):
    if not os.path.exists(f"{PROGRAMS}/{name}.in"):
        return b""
    with open(f"{PROGRAMS}/{name}.in", "rb") as it:
        return it.read()


def ratios(name, folder):
    """The instructions of our image over those of gcc's at each level; prints them."""
    source, ours, theirs = f"{PROGRAMS}/{name}.c", f"{folder}/ours", f"{folder}/theirs"
    subprocess.run([f"{TOP}/bin/sbcets", "build", source, ours], check=True, stdout=subprocess.DEVNULL)
    given = input_of(name)
    own, found = counted(ours, given), []
    for level in LEVELS:
        subprocess.run([*GCC, level, f"-I{folder}", "-o", theirs, source, f"{folder}/runtime.c"], check=True)
        found.append(own / counted(theirs, given))
    print(f"{name:16} {own:10}", *[f"{it:6.2f}" for it in found], flush=True)
    return found


def main(names):
    with tempfile.TemporaryDirectory() as folder:
        with open(f"{folder}/runtime.c", "w") as out:
            out.write(RUNTIME)
        for header in ("stdio.h", "stdlib.h", "stddef.h"):
            with open(f"{folder}/{header}", "w") as out:
                out.write(HEADER)
        found = [ratios(name, folder) for name in names]
    means = [math.exp(sum(map(math.log, column)) / len(column)) for column in zip(*found)]
    print(f"{'geometric mean':27}", *[f"{it:6.2f}" for it in means])


main(sys.argv[1:] or FIFTEEN)
