#!/usr/bin/env python3
"""How the time and the memory of the back end's passes grow with a function: processor seconds (the best of three) and
the greatest resident memory of `registers` and `generate`, by crates/code_generation_vectors, which does each behind
those before it, and of `assemble`, by crates/rv_vectors, over lists of as many items. Shapes: operators on few
values; a name for each three instructions, which is used at once; a name for each three instructions, all of them
needed to the end; calls with few values; as many calls as names that wait; and a name and a call for each four
instructions. No memory below this script's own, some 17000 kB, is seen.

usage: python3 bench/code_growth.py     (both programs must be built: `rt run` in their folders)
"""

import os
import subprocess
import tempfile

TOP = os.path.join(os.path.dirname(os.path.realpath(__file__)), "..")
GENERATOR = f"{TOP}/crates/code_generation_vectors/out/code_generation_vectors"
ASSEMBLER = f"{TOP}/crates/rv_vectors/out/rv_vectors"
CALLEE = ["function 1 0 2 program", "return 0"]


def program(names, lines):
    return "\n".join(["growth 16777216 0", f"function 0 0 {names} program"] + lines + ["exit 0"] + CALLEE) + "\n"


def operators(count):
    return program(8, ["constant 1 1", "constant 3 1", f"sums 3 1 {count}", "move 0 3"])


def calls(count):
    return program(8, ["fill 0 8"] + ["call 1 3 0"] * count + ["mix 1 2 0"])


def calls_and_names(count):
    return program(count + 1, [f"fill 0 {count + 1}"] + ["call 1 3 0"] * count + [f"mix 1 {count} 0"])


def names(count):
    return program(count // 3 + 1, [f"fill 0 {count // 3 + 1}", f"mix 1 {count // 3} 0"])


def short_lived(count):
    """A name for each three instructions, which is used at once."""
    lines = [f"fill {k} 1\nmix {k} 1 0" for k in range(1, count // 3 + 1)]
    return program(count // 3 + 1, ["constant 0 0"] + lines)


def short_lived_and_calls(count):
    """A name and a call for each four instructions."""
    lines = [f"fill {k} 1\ncall 1 {k} 0\nmix {k} 1 0" for k in range(1, count // 4 + 1)]
    return program(count // 4 + 1, ["constant 0 0"] + lines)


def items(count):
    jumps = f"nops {count // 4 - 1}\njump 0\n" * 2
    return f"lists\nlabel 0\n{jumps}nops {count // 2 - 2}\nlabel 1\nbeq 1 2 0\nbne 1 2 1\n"


def measured(words, path):
    """Processor seconds and kilobytes of one run, and what it said where it failed."""
    with open(path) as given:
        process = subprocess.Popen(words, stdin=given, stdout=subprocess.PIPE, stderr=subprocess.STDOUT)
    said = process.stdout.read().decode().strip().split("\n")[0]
    _, status, usage = os.wait4(process.pid, 0)
    return usage.ru_utime + usage.ru_stime, usage.ru_maxrss, said if os.waitstatus_to_exitcode(status) else ""


def best(words, path):
    runs = [measured(words, path) for _ in range(3)]
    return min(run[0] for run in runs), max(run[1] for run in runs), runs[0][2]


def main():
    with tempfile.TemporaryDirectory() as folder:
        path = f"{folder}/text"
        for shape, counts in ((operators, (10000, 100000, 1000000)), (short_lived, (10000, 30000, 100000)),
                              (names, (10000, 30000)), (calls, (10000, 100000)), (calls_and_names, (1000, 2000, 4000)),
                              (short_lived_and_calls, (10000, 20000, 40000, 80000))):
            for count in counts:
                with open(path, "w") as out:
                    out.write(shape(count))
                before, _, _ = best([GENERATOR, "test"], path)
                plan, plan_memory, _ = best([GENERATOR, "plan"], path)
                done, done_memory, said = best([GENERATOR, "generate"], path)
                print(f"{shape.__name__:21} {count:8}  test {before:6.2f} s  registers {plan - before:6.2f} s"
                      f" {plan_memory:8} kB  generate {done - plan:6.2f} s {done_memory:8} kB {said}")
        for count in (10000, 100000, 1000000):
            with open(path, "w") as out:
                out.write(items(count))
            seconds, memory, said = best([ASSEMBLER], path)
            print(f"{'assemble':21} {count:8}  {seconds:6.2f} s {memory:8} kB {said}")


main()
