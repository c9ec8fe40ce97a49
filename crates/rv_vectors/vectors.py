#!/usr/bin/env python3
"""Makes stdin and stdout of this program, a part by each script beside this one, by Debian's binutils-riscv64-linux-gnu and
qemu-user, by hand, and by nothing of this repository.

usage: python3 crates/rv_vectors/vectors.py make
"""

import os
import subprocess
import sys
import tempfile

import lists
import machine
import words

PARTS = (("lists", lists), ("words", words), ("machine", machine))


def main():
    if sys.argv[1:] != ["make"]:
        sys.exit(__doc__)
    here = os.path.dirname(os.path.abspath(__file__))
    with tempfile.TemporaryDirectory() as folder:
        made = [(name, *part.rows(folder)) for name, part in PARTS]
    with open(os.path.join(here, "stdin"), "w") as f:
        f.write("%%%\n".join(f"{name}\n{given}" for name, given, _ in made))
    with open(os.path.join(here, "stdout"), "w") as f:
        f.writelines(printed for _, _, printed in made)
    for name, given, _ in made:
        print(given.count("\n"), "lines of", name, file=sys.stderr)
    for tool in ("riscv64-linux-gnu-as", "qemu-riscv64"):
        print(subprocess.run([tool, "--version"], check=True, capture_output=True, text=True).stdout.split("\n")[0], file=sys.stderr)


if __name__ == "__main__":
    sys.exit(main())
