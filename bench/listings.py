#!/usr/bin/env python3
"""Builds the programs of crates/sbcets_tests, lists each image by `list`, puts the listing together again by `asm`, and
compares both files. The lines of each listing are held beside what riscv64-linux-gnu-objdump (Debian's
binutils-riscv64-linux-gnu) says of the words of its executable segments: it prints how many instructions there are, of
how many the lines agree, and the first that do not. Then it lists a file of 64 MiB and puts it together, and prints the
seconds and the memory of both calls.

usage: python3 bench/listings.py     (the program must be built: `bin/sbcets`)
"""

import glob
import os
import re
import resource
import struct
import subprocess
import sys
import tempfile
import time

TOP = os.path.join(os.path.dirname(os.path.realpath(__file__)), "..")
SBCETS = f"{TOP}/bin/sbcets"
OBJDUMP = "riscv64-linux-gnu-objdump -D -z -b binary -m riscv:rv64 -M numeric,no-aliases".split()
FAR = ("beq", "bne", "blt", "bge", "bltu", "bgeu", "jal")


def segments_of(image):
    """The place in the file and the bytes of each segment that may be executed."""
    for header in range(64, 64 + 4 * 56, 56):
        flags, offset = struct.unpack_from("<IQ", image, header + 4)
        size, = struct.unpack_from("<Q", image, header + 32)
        if flags & 1:
            yield offset, image[offset:offset + size]


def operand_of(name, text, address):
    """An operand as a listing has it: a decimal number, and of a branch or a jump how far it goes."""
    number = re.fullmatch(r"0x[0-9a-f]+|-?\d+", text)
    if not number:
        return text
    value = int(text, 0)
    return str(value - address if name in FAR else value)


def listed_by_objdump(code):
    """The line of each word that is an instruction, else nothing."""
    with tempfile.NamedTemporaryFile() as raw:
        raw.write(code)
        raw.flush()
        lines = subprocess.run([*OBJDUMP, raw.name], capture_output=True, check=True, text=True).stdout.split("\n")
    for line in lines:
        fields = re.match(r"\s*([0-9a-f]+):\s+([0-9a-f]{8})\s+(\S+)\s*([^#<]*)", line)
        if fields:
            address, name = int(fields[1], 16), fields[3]
            operands = [operand_of(name, it, address) for it in fields[4].strip().split(",") if it]
            yield f"{name} {','.join(operands)}".rstrip()


def listed_by_ours(text, image):
    """The lines of a listing by their places in the file."""
    place, lines = 0, {}
    for line in text.split("\n")[1:-1]:
        name, _, rest = line.partition(" ")
        lines[place] = line
        place += int(rest) if name == ".zero" else len(rest.split(" ")) if name == ".byte" else 4
    assert place == len(image)
    return lines


def compared(image, text):
    """How many instructions objdump finds in an image, and of how many our line is another."""
    ours, count, others = listed_by_ours(text, image), 0, []
    for offset, code in segments_of(image):
        for number, theirs in enumerate(listed_by_objdump(code)):
            if theirs.startswith(".") or theirs == "unimp":
                continue
            count += 1
            own = ours.get(offset + 4 * number)
            if own != theirs:
                others.append((own, theirs))
    return count, others


def called(*words, out=None):
    before = time.time()
    subprocess.run([SBCETS, *words], check=True, stdout=out or subprocess.DEVNULL)
    return time.time() - before


def read(name, mode="rb"):
    with open(name, mode) as it:
        return it.read()


def large(folder):
    """A file of 64 MiB, listed and put together: the image of a program, and words of all kinds behind it."""
    image = read(f"{folder}/image")
    words = b"".join(struct.pack("<I", (number * 2654435761) % 2 ** 32) for number in range(2 ** 20))
    with open(f"{folder}/large", "wb") as it:
        it.write((image + words * 17)[:64 * 2 ** 20])
    with open(f"{folder}/text", "wb") as out:
        first = called("list", f"{folder}/large", out=out)
    second = called("asm", f"{folder}/text", f"{folder}/made")
    assert read(f"{folder}/large") == read(f"{folder}/made")
    most = resource.getrusage(resource.RUSAGE_CHILDREN).ru_maxrss // 1024
    print(f"64 MiB: list {first:.1f} s, asm {second:.1f} s, at most {most} MiB")


def main():
    images = count = wrong = 0
    with tempfile.TemporaryDirectory() as folder:
        for source in sorted(glob.glob(f"{TOP}/crates/sbcets_tests/programs/*.c")):
            called("build", source, f"{folder}/image")
            with open(f"{folder}/text", "wb") as out:
                called("list", f"{folder}/image", out=out)
            called("asm", f"{folder}/text", f"{folder}/made")
            image = read(f"{folder}/image")
            assert image == read(f"{folder}/made"), source
            found, others = compared(image, read(f"{folder}/text", "r"))
            images, count, wrong = images + 1, count + found, wrong + len(others)
            if others:
                print(os.path.basename(source), *others[0], sep="\n  ")
        print(f"{images} images, {count} instructions, {count - wrong} lines agree")
        large(folder)
    return wrong > 0


if __name__ == "__main__":
    sys.exit(main())
