#!/usr/bin/env python3
"""How the time and the memory of `sbcets build` grow with one function: processor seconds (the best of three) and the
greatest resident memory of a whole run, at 64, 256 and 1024 kB of text. Shapes: one variable that gets what calls give;
calls whose results go nowhere; calls among variables that wait; `do` loops over many variables; one variable that is
used and set anew; operators on a few variables. No memory below this script's own, some 17000 kB, is seen.

usage: python3 bench/build_growth.py [SHAPE ..]     (bin/sbcets must be built)
"""

import os
import subprocess
import sys
import tempfile

TOP = os.path.join(os.path.dirname(os.path.realpath(__file__)), "..")
SIZES = (64 * 1024, 256 * 1024, 1024 * 1024)
CALLEE = "int f(void){return 1;}\n"
TAIL = "return a;}\n"


def filled(head, unit, size, tail=TAIL):
    """A head, as many units as the size has room for, and a tail."""
    return head + unit * ((size - len(head) - len(tail)) // len(unit)) + tail


def named(size, share, declaration, units, tail=TAIL):
    """Variables by a declaration of each in a share of the size, and units over one after the other in the rest."""
    head, text, count = CALLEE + "int main(void){int a=0;\n", [], 0
    left = int(size * share)
    while left > 0:
        text.append(declaration.replace("@", str(count)))
        left -= len(text[-1])
        count += 1
    rest, k = size - len(head) - sum(map(len, text)) - len(tail), 0
    while True:
        unit = units.replace("@", str(k % count))
        rest -= len(unit)
        if rest < 0:
            return "".join([head] + text + [tail])
        text.append(unit)
        k += 1


def calls(size):
    return filled(CALLEE + "int main(void){int a;\n", "a=f();\n", size)


def lost_calls(size):
    return filled(CALLEE + "int main(void){int a=0;\n", "f();\n", size)


def calls_among_variables(size):
    return named(size, 0.3, "int v@=f();\n", "v@=v@+f();\n")


def do_loops(size):
    return named(size, 0.3, "int v@=0;\n", "do v@++;while(a);\n")


def intervals(size):
    return filled("int main(void){int a=1;int b;\n", "b=a;a=b+1;\n", size)


def operators(size):
    return filled("int main(void){int a=1;int b=2;\n", "a=-b+~a;b=a-b;\n", size)


SHAPES = (calls, lost_calls, calls_among_variables, do_loops, intervals, operators)


def measured(folder):
    """Processor seconds and kilobytes of one build, and what it said where it failed."""
    process = subprocess.Popen([f"{TOP}/bin/sbcets", "build", "text.c", "image"], cwd=folder,
                               stdout=subprocess.PIPE, stderr=subprocess.STDOUT)
    said = process.stdout.read().decode(errors="replace").strip().split("\n")[0]
    _, status, usage = os.wait4(process.pid, 0)
    return usage.ru_utime + usage.ru_stime, usage.ru_maxrss, said if os.waitstatus_to_exitcode(status) else ""


def main():
    for shape in [it for it in SHAPES if not sys.argv[1:] or it.__name__ in sys.argv[1:]]:
        for size in SIZES:
            with tempfile.TemporaryDirectory() as folder:
                with open(f"{folder}/text.c", "w") as out:
                    out.write(shape(size))
                runs = [measured(folder) for _ in range(3)]
            seconds, memory = min(run[0] for run in runs), max(run[1] for run in runs)
            print(f"{shape.__name__:22} {size:8} bytes {seconds:7.2f} s {memory:8} kB {runs[0][2]}", flush=True)


if __name__ == "__main__":
    main()
