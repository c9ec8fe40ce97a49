#!/usr/bin/env python3
"""Runs the images of programs of integers under qemu-riscv64 (Debian's qemu-user) and on the simulator, and compares what they
write, their reports and their statuses. QEMU reads the code that it runs, so the two segments of code, which may only be
executed, are made readable for it.

usage: python3 bench/other_emulator.py
"""

import glob
import os
import struct
import subprocess
import tempfile

TOP = os.path.join(os.path.dirname(os.path.realpath(__file__)), "..")


def readable(image):
    """An image whose segments that may only be executed can be read too."""
    image = bytearray(image)
    for header in range(64, 64 + 4 * 56, 56):
        flags, = struct.unpack_from("<I", image, header + 4)
        if flags == 1:
            struct.pack_into("<I", image, header + 4, 5)
    return image


def ran(words, given):
    done = subprocess.run(words, input=given, capture_output=True, timeout=60)
    return done.stdout, done.stderr, done.returncode


def inputs(source):
    """The inputs that stand beside a program: none where there is no file."""
    for file in sorted(glob.glob(f"{source[:-1]}in") + glob.glob(f"{source[:-1]}*.in")):
        with open(file, "rb") as it:
            yield it.read()


def main():
    same = count = 0
    with tempfile.TemporaryDirectory() as folder:
        for source in sorted(glob.glob(f"{TOP}/crates/sbcets_tests/programs/*.c") + glob.glob(f"{TOP}/examples/*.c")):
            own, other = f"{folder}/own", f"{folder}/other"
            subprocess.run([f"{TOP}/bin/sbcets", "build", source, own], check=True, stdout=subprocess.DEVNULL)
            with open(own, "rb") as image, open(other, "wb") as out:
                out.write(readable(image.read()))
            os.chmod(other, 0o755)
            for given in list(inputs(source)) or [b""]:
                count += 1
                if ran([f"{TOP}/bin/sbcets", "run", own], given) == ran(["qemu-riscv64", other], given):
                    same += 1
                else:
                    print(os.path.basename(source))
    print(f"{same} of {count} runs do the same")


if __name__ == "__main__":
    main()
