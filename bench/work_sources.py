#!/usr/bin/env python3
"""Calls `work SEED 1` for each of the 60 pairs of a template and a length of its loops, with the smallest seed that draws
the pair, and compares its lines with the length of the text by docs/FORMATS.md and with what gcc's program of that text
writes. Each program is run with 15625000 instructions too, the 64th part of the limit of `work`: where all end within so
many, a source of 64 functions ends within the limit, since no loop depends on a function's argument. Then calls `work`
with 64 functions for some seeds, twice each. Prints what differs, and how many calls there were.

usage: python3 bench/work_sources.py     (the program must be built: `bin/sbcets`)
"""

import importlib.util
import os
import subprocess
import sys
import tempfile

TOP = os.path.join(os.path.dirname(os.path.realpath(__file__)), "..")
SBCETS = f"{TOP}/bin/sbcets"
# an object begins zeroed here: the strings of a template end where they were never written
OPTIONS = ["-std=c99", "-O1", "-fwrapv", "-funsigned-char", "-ftrivial-auto-var-init=zero", "-w",
           "-include", "stdio.h", "-include", "stdlib.h", "-include", "string.h"]
# C99 tells the sign of what `strcmp` gives alone (7.21.4.2), and ours is -1, 0 or 1
SIGN = "static int sign_of(int n){return (n>0)-(n<0);}\n#define strcmp(a,b) sign_of(strcmp(a,b))\n"
SHARE = 1000000000 // 64
LONG = [0, 1, 7, 12345, 2 ** 64 - 1]

sys.dont_write_bytecode = True
spec = importlib.util.spec_from_file_location("vectors", f"{TOP}/crates/base_tests/vectors.py")
vectors = importlib.util.module_from_spec(spec)
spec.loader.exec_module(vectors)


def pairs():
    """The smallest seed of each pair of a template and a length."""
    seeds, seed = {}, 0
    while len(seeds) < 60:
        state = (6364136223846793005 * seed + 1442695040888963407) % 2 ** 64
        rest, template = divmod(state >> 33, 4)
        seeds.setdefault((template, 2 + rest % 15), seed)
        seed += 1
    return seeds


def ran_by_gcc(folder, text):
    with open(f"{folder}/program.c", "w", encoding="ascii") as it:
        it.write(SIGN + text)
    subprocess.run(["gcc", *OPTIONS, "-o", f"{folder}/program", f"{folder}/program.c"], check=True)
    return subprocess.run([f"{folder}/program"], capture_output=True, check=False)


def lines_of(folder, seed, count):
    """The first, third and fourth line that `work` is to print, and the text."""
    text = "".join(f"{line}\n" for line in vectors.long_source(seed, count))
    ran = ran_by_gcc(folder, text)
    return [f"source {len(text)} bytes", f"status {ran.returncode}", f"output {len(ran.stdout)} bytes"], text, ran


def worked(seed, count):
    call = subprocess.run([SBCETS, "work", str(seed), str(count)], capture_output=True, text=True, check=False)
    lines = call.stdout.split("\n")
    return lines[:1] + lines[2:4], call


def differs(folder, seed, count):
    """Whether the lines of a call are others."""
    wanted, text, ran = lines_of(folder, seed, count)
    shown, call = worked(seed, count)
    if shown != wanted or call.returncode != ran.returncode or call.stderr:
        print(f"work {seed} {count}: {call.stdout!r}, {call.stderr!r}, wanted {wanted}")
        return True, text
    return False, text


def is_short(folder, text):
    """Whether the run of a text ends within a 64th part of the limit."""
    with open(f"{folder}/text.c", "w", encoding="ascii") as it:
        it.write(text)
    call = subprocess.run([SBCETS, "go", f"{folder}/text.c", "--limit", str(SHARE)], capture_output=True, check=False)
    return call.returncode == 0


def main():
    calls, others, long = 0, 0, 0
    with tempfile.TemporaryDirectory() as folder:
        for seed in pairs().values():
            is_other, text = differs(folder, seed, 1)
            calls, others, long = calls + 1, others + is_other, long + (not is_short(folder, text))
        for seed in LONG + LONG:
            calls, others = calls + 1, others + differs(folder, seed, 64)[0]
    print(f"{calls} calls, {others} with other lines; {long} programs with more than {SHARE} instructions")


if __name__ == "__main__":
    main()
