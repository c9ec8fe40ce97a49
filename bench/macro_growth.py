#!/usr/bin/env python3
"""Calls of function-like macros: makes texts of them at three sizes each, and prints the processor seconds and the
memory of a whole run of crates/c_pre_vectors on each, with the first line of what it answered. Wants that program built.

usage: bench/macro_growth.py [SECONDS]      (a run that takes longer is given up; 60 where no number is given)
"""

import os
import resource
import subprocess
import sys

CRATE = os.path.join(os.path.dirname(os.path.realpath(__file__)), "..", "crates", "c_pre_vectors")
PROGRAM = os.path.join(CRATE, "out", "c_pre_vectors")
ONE = "#define f(x) x\n"
TWO = "#define f(x,y) x\n"
SECOND = "#define f(x,y) y\n"
LIMIT = 1 << 20

SHAPES = {
    "inside one another": lambda n: ONE + "f(" * n + "1" + ")" * n,
    "commas in inner parentheses": lambda n: TWO + "f(" * n + "1" + ",(2,3))" * n,
    "the second argument": lambda n: SECOND + "f(," * n + "1" + ")" * n,
    "two calls in each": lambda n: SECOND + "f(f(1,2)," * n + "3" + ")" * n,
    "one ) too few": lambda n: ONE + "f(" * n + "1" + ")" * (n - 1),
    "no )": lambda n: ONE + "f (" * n,
    "parentheses in one call": lambda n: ONE + "f(" + "(" * n + "1" + ")" * n + ")",
    "commas in one call": lambda n: ONE + "f((" + "1," * n + "1))",
    "beside each other": lambda n: ONE + "f(1) " * n,
    "one call over lines": lambda n: ONE + "f(\n" + "1\n" * n + ")",
    "a chain of macros": lambda n: "".join(f"#define b{i} b{i + 1}\n" for i in range(n)) + "b0",
}


def run(text, seconds):
    """The processor seconds and megabytes of a run, and the first line of its answer."""
    row = f"%doubled 0\nx y\n{text}\n"
    reader, writer = os.pipe()
    child = os.fork()
    if child == 0:
        os.close(reader)
        try:
            ran = subprocess.run([PROGRAM], input=row, capture_output=True, text=True, timeout=seconds, check=False)
            answer = (ran.stdout or ran.stderr).split("\n")[0]
        except subprocess.TimeoutExpired:
            answer = f"not ended in {seconds} s"
        used = resource.getrusage(resource.RUSAGE_CHILDREN)
        os.write(writer, f"{used.ru_utime + used.ru_stime:6.2f} s {used.ru_maxrss // 1024:5} MB  {answer}".encode())
        os._exit(0)
    os.close(writer)
    with os.fdopen(reader) as told:
        line = told.read()
    os.waitpid(child, 0)
    return line


def main():
    seconds = float(sys.argv[1]) if len(sys.argv) > 1 else 60
    if not os.path.exists(PROGRAM):
        sys.exit(f"{PROGRAM} is not built: rt run in its folder")
    for shape, text_of in SHAPES.items():
        for n in (10_000, 100_000, 300_000):
            while len(text_of(n)) > LIMIT - 64:
                n -= 5_000
            print(f"{shape:28} {n:7} {run(text_of(n), seconds)}", flush=True)


if __name__ == "__main__":
    main()
