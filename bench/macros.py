#!/usr/bin/env python3
"""Compares macros with parameters with gcc and clang, on random texts that are no rows of c_pre_vectors: makes COUNT texts
by SEED, runs crates/c_pre_vectors on them, unproved, and tells each text on which its answer differs from that of gcc, with
which clang has to agree. Texts on which gcc and clang differ are left out. Ends with status 1 where one differs.

usage: bench/macros.py COUNT SEED
"""

import importlib.util
import os
import subprocess
import sys

CRATE = os.path.join(os.path.dirname(os.path.realpath(__file__)), "..", "crates", "c_pre_vectors")
# How many texts are run at once: the program has a minute.
BATCH = 60


def vectors():
    """The script that makes the rows of the crate."""
    spec = importlib.util.spec_from_file_location("vectors", os.path.join(CRATE, "vectors.py"))
    module = importlib.util.module_from_spec(spec)
    spec.loader.exec_module(module)
    return module


def answers(texts, end):
    """What the program prints of each text."""
    ran = subprocess.run(["rt", "try"], cwd=CRATE, input=end.join(texts), capture_output=True, text=True, check=False)
    return ran.stdout.split(end)[: len(texts)]


def main():
    if len(sys.argv) != 3:
        sys.exit(__doc__)
    made = vectors()
    rows = []
    for text in made.random_calls(int(sys.argv[2]), int(sys.argv[1])):
        try:
            rows.append((text, made.expected(text)))
        except ValueError as error:
            print("left out:", error, repr(text), file=sys.stderr)
    differ = 0
    for start in range(0, len(rows), BATCH):
        part = rows[start : start + BATCH]
        for (text, want), got in zip(part, answers([text for text, _ in part], made.END), strict=True):
            if got != want:
                differ += 1
                print(f"{text}wanted {want}got {got}")
    print(len(rows), "texts,", sum(want.startswith("fault") for _, want in rows), "of them faults,", differ, "differ")
    return 1 if differ else 0


if __name__ == "__main__":
    sys.exit(main())
