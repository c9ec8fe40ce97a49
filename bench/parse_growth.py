#!/usr/bin/env python3
# How the time and the memory of reading a text grow with its length: for each of five shapes and three lengths the
# seconds of the best of five runs, and the greatest resident memory, of `PROGRAM go TEXT`. Each text is parsed, and then
# refused since it is no text of the part, so nothing of it is compiled. No memory below this script's own, some 17000 kB, is seen.
#
#     python3 bench/parse_growth.py crates/sbcets_cli/out/sbcets_cli
import os, subprocess, sys, tempfile, time

LENGTHS = [65536, 262144, 1048576]


def filled(head, unit, tail, length):
    """A text of this length: the head, as many units as there is room for, the tail, and spaces."""
    count = (length - len(head) - len(tail)) // len(unit)
    text = head + unit * count + tail
    return text + " " * (length - len(text))


def functions(length):
    """Functions of 100 bytes each: over ten thousand at 1048576 bytes."""
    unit = "static int f(int a, int b)\n{\n    int c = a + b;\n    if (c) return c * 2;\n    return b; /*   */\n}\n"
    return filled("", unit + " " * (100 - len(unit)), "", length)


def statements(length):
    """One function of over a hundred thousand statements at 1048576 bytes."""
    return filled("int f(int x){\n", "x=x+1;\n", "return x;}\n", length)


def terms(length):
    """One expression of over two hundred thousand terms at 1048576 bytes."""
    return filled("int f(int x){return g(0", ",\nx+1", ");}\n", length)


def empty_statements(length):
    """One function of empty statements, each of one byte: no shape that was tried takes more memory."""
    return filled("int f(int x){", ";", "}", length)


def typedef_names(length):
    """Typedefs alone: over forty-nine thousand names at 1048576 bytes, which are kept in a set."""
    text = "".join(f"typedef int T{i:06};\n" for i in range(length // 21))
    return text + " " * (length - len(text))


def measured(program, path):
    """Seconds and kilobytes of one run."""
    start = time.perf_counter()
    process = subprocess.Popen([program, "go", path], stdout=subprocess.DEVNULL, stderr=subprocess.PIPE)
    line = process.stderr.read().decode().strip()
    _, status, usage = os.wait4(process.pid, 0)
    assert os.waitstatus_to_exitcode(status) == 110 and "unsupported" in line, (status, line)
    return time.perf_counter() - start, usage.ru_maxrss


def main():
    if len(sys.argv) != 2 or sys.argv[1].startswith("-"):
        sys.exit("usage: python3 bench/parse_growth.py PROGRAM   (crates/sbcets_cli/out/sbcets_cli)")
    program = sys.argv[1]
    with tempfile.TemporaryDirectory() as folder:
        for shape in (functions, statements, terms, empty_statements, typedef_names):
            for length in LENGTHS:
                path = os.path.join(folder, "text.c")
                with open(path, "w") as text:
                    text.write(shape(length))
                runs = [measured(program, path) for _ in range(5)]
                print(f"{shape.__name__:16} {length:8} {min(r[0] for r in runs):8.3f} s {max(r[1] for r in runs):8} kB")


main()
