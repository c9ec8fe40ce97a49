#!/usr/bin/env python3
"""How the time and the memory of `lower` and of `insert` grow with a program: nodes of three-address code behind each,
processor seconds (the best of three) and the greatest resident memory, by crates/lowering_vectors, which does each
behind those before it. Shapes: operators on a plain variable; members through pointers, whose keys are as long as the
chains; elements of an array, each access with a key of its own; counted loops; blocks with an object; the cases of
one switch; and as many functions as a program may have. No memory below this script's own, some 17000 kB, is seen.

usage: python3 bench/lowering_growth.py [MOST]     (at most so many nodes, 1000000 if none; the program must be built:
                                                     `rt run` in its folder)
"""

import os
import subprocess
import sys
import tempfile

TOP = os.path.join(os.path.dirname(os.path.realpath(__file__)), "..")
LONGEST = 1048576
PROGRAM = f"{TOP}/crates/lowering_vectors/out/lowering_vectors"


def body(head, unit, count, tail="return x;}\n"):
    """A head, so many units with their numbers, as far as a text may go, and a tail."""
    units, left = [], LONGEST - len(head) - len(tail)
    for k in range(count):
        units.append(unit.replace("@", str(k)))
        left -= len(units[-1])
        if left < 0:
            units.pop()
            break
    return "".join([head] + units + [tail])


def operators(nodes):
    return body("int main(void){int x=1;\n", "-" + "~" * 98 + "x;\n", nodes // 100)


def members(nodes):
    """Each `->` is a read, its two checks, and the pointer to the member."""
    return body("struct s{struct s*q;int v;}o;int main(void){struct s*p=&o;int x=0;\n", "p" + "->q" * 48 + "->v;\n", nodes // 200)


def elements(nodes):
    return body("int a[9];int main(void){int x=1;\n", "a[x]=a[@];\n", nodes // 12)


def loops(nodes):
    return body("int main(void){int x=1;int i;\n", "for(i=0;i<9;i++)x=x+i;\n", nodes // 11)


def blocks(nodes):
    return body("int main(void){int x=1;\n", "{int a[1];a[0]=x;}\n", nodes // 10)


def cases(nodes):
    return body("int main(void){int x=1;switch(x){\n", "case @:x++;\n", nodes // 2, "}return x;}\n")


def functions(nodes):
    """4000 functions."""
    unit = f"int f@(int*x){{{'*x=*x+1;' * (nodes // 40000)}return 0;}}\n"
    return body("", unit, 4000, "int main(void){int x=0;return f0(&x);}\n")


def measured(phase, path):
    """Processor seconds and kilobytes of one run, and what it told."""
    with open(path) as given:
        process = subprocess.Popen([PROGRAM, phase], stdin=given, stdout=subprocess.PIPE, stderr=subprocess.STDOUT)
    told = process.stdout.read().decode().strip().split("\n")[0]
    _, _, usage = os.wait4(process.pid, 0)
    return usage.ru_utime + usage.ru_stime, usage.ru_maxrss, told


def best(phase, path):
    runs = [measured(phase, path) for _ in range(3)]
    return min(run[0] for run in runs), max(run[1] for run in runs), runs[0][2]


def main():
    most = int(sys.argv[1]) if len(sys.argv) > 1 else 1000000
    with tempfile.TemporaryDirectory() as folder:
        path = f"{folder}/text"
        for shape in (operators, members, elements, loops, blocks, cases, functions):
            for nodes in (10000, 100000, 1000000):
                if nodes > most or shape is functions and nodes < 100000:
                    continue
                with open(path, "w") as out:
                    out.write(shape(nodes))
                before, _, _ = best("type", path)
                lowered, memory, told = best("lower", path)
                inserted, more, checked = best("insert", path)
                print(f"{shape.__name__:10} type {before:6.2f} s  lower {lowered - before:6.2f} s {memory:8} kB {told}"
                      f"  insert {inserted - lowered:6.2f} s {more:8} kB {checked}", flush=True)


main()
