#!/usr/bin/env python3
"""Builds the programs of crates/sbcets_tests/programs/expected.txt by a given sbcets, and runs their images on its simulator
and under qemu-riscv64 (Debian's qemu-user): each must write, report and end as its row says. A row that does not is printed,
with what came instead.

usage: python3 bench/program_rows.py SBCETS [--jobs N] [--emulator] [NAME ..]

--emulator leaves the simulator out. A name is that of a row, or of a folder for all its rows.
"""

import argparse
import os
import subprocess
import sys
import tempfile
from concurrent.futures import ThreadPoolExecutor

sys.dont_write_bytecode = True
from other_emulator import TOP, readable

PROGRAMS = f"{TOP}/crates/sbcets_tests/programs"
BUDGETS = "--heap 1048576 --stack 65536 --calls 1048576 --blocks 4096".split()
SECONDS = 600


def rows(names):
    """The name of each row that is asked for, and what is expected."""
    with open(f"{PROGRAMS}/expected.txt", encoding="ascii") as lines:
        for line in lines:
            name, expected = line.rstrip("\n").split(" ", 1)
            if not names or name in names or os.path.dirname(name) in names:
                yield name, expected


def escaped(data):
    """Bytes as a row has them: each that is no printable character of ASCII, and the backslash, is an escape."""
    escapes = {ord("\n"): "\\n", ord("\\"): "\\\\"}
    return "".join(escapes.get(byte) or (chr(byte) if 32 <= byte < 127 else f"\\x{byte:02x}") for byte in data)


def shown(done):
    """The status, and what was written, as a row has them."""
    parts = [str(done.returncode)]
    for name, data in (("output", done.stdout), ("errors", done.stderr)):
        if data:
            parts.append(f"{name} {escaped(data)}")
    return " ".join(parts)


def given(name):
    path = f"{PROGRAMS}/{name}.in"
    if not os.path.exists(path):
        return b""
    with open(path, "rb") as it:
        return it.read()


def ran(words, data=b""):
    try:
        return shown(subprocess.run(words, input=data, capture_output=True, timeout=SECONDS))
    except subprocess.TimeoutExpired:
        return f"no end in {SECONDS} seconds"


def differences(asked, name, expected):
    """What came of a row instead of what is expected, behind the name of the machine."""
    with tempfile.TemporaryDirectory() as folder:
        image, other = f"{folder}/image", f"{folder}/other"
        built = ran([asked.sbcets, "build", f"{PROGRAMS}/{name}.c", image, *BUDGETS])
        if not os.path.exists(image):
            return [f"build: {built}"]
        with open(image, "rb") as it, open(other, "wb") as out:
            out.write(readable(it.read()))
        os.chmod(other, 0o755)
        runs = [("qemu", ran(["qemu-riscv64", other], given(name)))]
        if not asked.emulator:
            runs.append(("run", ran([asked.sbcets, "run", image], given(name))))
        return [f"{machine}: {got}" for machine, got in runs if got != expected]


def main():
    parser = argparse.ArgumentParser(usage="python3 bench/program_rows.py SBCETS [--jobs N] [--emulator] [NAME ..]")
    parser.add_argument("sbcets")
    parser.add_argument("--jobs", type=int, default=os.cpu_count())
    parser.add_argument("--emulator", action="store_true")
    parser.add_argument("names", nargs="*")
    asked = parser.parse_intermixed_args()
    asked_rows = list(rows(asked.names))
    same = 0
    with ThreadPoolExecutor(asked.jobs) as jobs:
        found = jobs.map(lambda row: differences(asked, *row), asked_rows)
        for (name, expected), others in zip(asked_rows, found):
            same += not others
            if others:
                print(name, f"expected: {expected}", *others, sep="\n    ", flush=True)
    print(f"{same} of {len(asked_rows)} rows are as expected")
    return same < len(asked_rows)


if __name__ == "__main__":
    raise SystemExit(main())
