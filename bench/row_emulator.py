#!/usr/bin/env python3
"""Runs the images of the programs of crates/code_generation_vectors, under both plans, on qemu-riscv64 (Debian's
qemu-user), and compares what they write, their reports and their statuses with what the crate's `stdout` says. QEMU
reads the code that it runs, so the two segments of code, which may only be executed, are made readable for it.

usage: python3 bench/row_emulator.py     (the program must be built: `rt run` in crates/code_generation_vectors)
"""

import os
import subprocess
import sys
import tempfile

sys.dont_write_bytecode = True
from code_images import ROWS, programs
from other_emulator import readable


def shown(path, given):
    """The status, the output in hexadecimal digits and the report, as a line of `stdout` has them."""
    done = subprocess.run(["qemu-riscv64", path], input=given, capture_output=True, timeout=60)
    words = [str(done.returncode), done.stdout.hex()]
    return " ".join(words + ([done.stderr.decode().rstrip()] if done.stderr else []))


def main():
    with open(f"{ROWS}/stdout") as lines:
        expected = dict(line.rstrip("\n").split(" ", 1) for line in lines)
    same = count = 0
    with tempfile.TemporaryDirectory() as folder:
        path = f"{folder}/image"
        for name, given, pair in programs():
            for plan, image in zip(("slots", "registers"), pair):
                with open(path, "wb") as out:
                    out.write(readable(image))
                os.chmod(path, 0o755)
                count += 1
                got = shown(path, given)
                if got == expected[name]:
                    same += 1
                else:
                    print(name, plan, got[:100], sep="  ")
    print(f"{same} of {count} images do the same")
    return same < count


if __name__ == "__main__":
    sys.exit(main())
