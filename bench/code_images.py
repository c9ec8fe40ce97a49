#!/usr/bin/env python3
"""Makes the images of the programs of crates/code_generation_vectors under both plans, and disassembles their two
segments of code by riscv64-linux-gnu-objdump (Debian's binutils-riscv64-linux-gnu) and by crates/rv_vectors: it
prints how many instructions there are, of how many the texts agree, and the first that do not.

usage: python3 bench/code_images.py     (both programs must be built: `rt run` in their folders)
"""

import os
import re
import struct
import subprocess
import sys
import tempfile

TOP = os.path.join(os.path.dirname(os.path.realpath(__file__)), "..")
ROWS = f"{TOP}/crates/code_generation_vectors"
GENERATOR = f"{ROWS}/out/code_generation_vectors"
LISTER = f"{TOP}/crates/rv_vectors/out/rv_vectors"
OBJDUMP = "riscv64-linux-gnu-objdump -D -z -b binary -m riscv:rv64 -M numeric,no-aliases".split()


def programs():
    """Each program of the rows with its name, its input, and its images under the two plans."""
    with open(f"{ROWS}/stdin") as rows:
        texts = rows.read().split("%%\n")
    for text in texts:
        made = subprocess.run([GENERATOR, "print"], input=text.encode(), capture_output=True, check=True).stdout.split()
        head = text.split("\n", 1)[0].split(" ")
        if len(made) == 3:
            yield head[0], bytes.fromhex("".join(head[3:4])), [bytes.fromhex(image.decode()) for image in made[1:]]


def code_of(image):
    """The bytes of the segments that may be executed."""
    for header in range(64, 64 + 4 * 56, 56):
        flags, offset = struct.unpack_from("<IQ", image, header + 4)
        size, = struct.unpack_from("<Q", image, header + 32)
        if flags & 1:
            yield image[offset:offset + size]


def listed_by_objdump(code):
    """A line for each word, as crates/rv_vectors writes it."""
    with tempfile.NamedTemporaryFile() as raw:
        raw.write(code)
        raw.flush()
        lines = subprocess.run(OBJDUMP + [raw.name], capture_output=True, check=True, text=True).stdout.split("\n")
    for line in lines:
        fields = re.match(r"\s*[0-9a-f]+:\s+([0-9a-f]{8})\s+(\S+)\s*([^#<]*)", line)
        if fields:
            yield f"{fields[1]} {fields[2]} {fields[3].strip()}".rstrip()


def listed_by_ours(code):
    words = "words\n" + "".join(f"{word:08x}\n" for word, in struct.iter_unpack("<I", code))
    return subprocess.run([LISTER], input=words, capture_output=True, check=True, text=True).stdout.split("\n")[:-1]


def main():
    count = same = images = 0
    for name, _, pair in programs():
        for image in pair:
            images += 1
            for code in code_of(image):
                ours, theirs = listed_by_ours(code), list(listed_by_objdump(code))
                assert len(ours) == len(code) // 4 and len(theirs) == len(ours), (name, len(ours), len(theirs))
                count += len(ours)
                agreed = sum(a == b for a, b in zip(ours, theirs))
                same += agreed
                if agreed < len(ours):
                    print(name, *next((a, b) for a, b in zip(ours, theirs) if a != b), sep="\n  ")
    print(f"{images} images, {count} instructions, the texts of {same} agree")
    return same < count


if __name__ == "__main__":
    sys.exit(main())
