#!/usr/bin/env python3
"""The part `lists` of stdin, and what it must print, by Debian's binutils-riscv64-linux-gnu.

Each list is written in assembly language, with labels, `j` and `jal ra` for jumps and calls and branches by their names, and
assembled by `riscv64-linux-gnu-as -march=rv64im -mno-relax`, which itself turns a branch that does not reach into the opposite
branch over a jump. It knows no jump of more than 1 MiB: where a list is that long, the jumps, calls and branches that are
marked `far` below are written as AUIPC and JALR over x31, by %pcrel_hi and %pcrel_lo, a branch as the opposite one over both.
The last lists cannot be assembled: a label stands twice, or an item goes to one that stands nowhere.
"""

import os
import subprocess

TOOL = "riscv64-linux-gnu-"
NOP = 0x13
OPPOSITE = {"beq": "bne", "bne": "beq", "blt": "bge", "bge": "blt", "bltu": "bgeu", "bgeu": "bltu"}
WORDS = ["05d00893", "02b50533", "00813503"]

# Each list is a list of items; `far NAME ..` is an item whose label is more than 1 MiB away.
LISTS = [
    ["label 0"],
    [f"word {w}" for w in WORDS],
    ["label 0", "jump 0"],
    ["jump 0", "label 0", "word 05d00893"],
    ["call 7", "word 05d00893", "label 7", "word 02b50533", "call 7"],
    ["label 3", "beq 10 11 3", "bne 0 31 9", "blt 5 6 3", "label 9", "bge 1 2 3", "bltu 3 4 9", "bgeu 7 8 3", "jump 9"],
    ["label 0", "label 1", "label 2", "bltu 10 11 1", "jump 2", "call 0"],
    # The furthest that one word reaches, and one more.
    ["label 0", "nops 1023", "beq 10 11 0"],
    ["label 0", "nops 1025", "beq 10 11 0"],
    ["bge 10 11 0", "nops 1020", "label 0"],
    ["bge 10 11 0", "nops 1023", "label 0"],
    ["jump 0", "nops 200000", "label 0", "blt 1 2 1", "nops 50000", "label 1", "call 0"],
    # Beyond 1 MiB, either way.
    ["far jump 0", "far beq 10 11 0", "nops 262150", "label 0", "jump 1", "label 1"],
    ["label 0", "nops 262150", "far call 0", "far bgeu 30 29 0", "label 1", "bne 1 2 1"],
    ["far call 1", "label 0", "nops 300000", "label 1", "far blt 3 4 0", "nops 1030", "bltu 5 6 1"],
]
REFUSED = [["label 0", "label 0"], ["jump 1", "label 0"], ["label 4", "word 05d00893", "label 4", "jump 4"]]


def far(words, number):
    """AUIPC and JALR over x31, and before them the opposite of a branch."""
    name, label = words[0], words[-1]
    link = "ra" if name == "call" else "zero"
    over = [f"{OPPOSITE[name]} x{words[1]}, x{words[2]}, F{number}"] if name in OPPOSITE else []
    return over + [f"A{number}: auipc x31, %pcrel_hi(L{label})", f"jalr {link}, %pcrel_lo(A{number})(x31)", f"F{number}:"]


def lines_of(item, number):
    """An item in assembly language."""
    name, *rest = item.split()
    if name == "far":
        return far(rest, number)
    return {
        "label": lambda l: [f"L{l}:"],
        "word": lambda w: [f".word 0x{w}"],
        "nops": lambda n: [f".rept {n}", "nop", ".endr"],
        "jump": lambda l: [f"j L{l}"],
        "call": lambda l: [f"jal ra, L{l}"],
    }.get(name, lambda a, b, l: [f"{name} x{a}, x{b}, L{l}"])(*rest)


def words_of(folder, items):
    source, linked, raw = (os.path.join(folder, name) for name in ("l.s", "l.out", "l.bin"))
    with open(source, "w") as f:
        f.write("\n".join(["_start:"] + [line for k, i in enumerate(items) for line in lines_of(i, k)]) + "\n")
    for command in ([TOOL + "as", "-march=rv64im", "-mno-relax", "-o", linked + ".o", source],
                    [TOOL + "ld", "--no-relax", "-Ttext=0", "-e", "0", "-o", linked, linked + ".o"],
                    [TOOL + "objcopy", "-O", "binary", "-j", ".text", linked, raw]):
        subprocess.run(command, check=True, stderr=subprocess.DEVNULL)
    with open(raw, "rb") as f:
        data = f.read()
    return [int.from_bytes(data[k:k + 4], "little") for k in range(0, len(data), 4)]


def rows(folder):
    """The rows of the part, and what they must print."""
    given = "%%\n".join("".join(i.removeprefix("far ") + "\n" for i in items) for items in LISTS + REFUSED)
    printed = ""
    for items in LISTS:
        words = words_of(folder, items)
        printed += "".join(f"{k} {w:08x}\n" for k, w in enumerate(words) if w != NOP)
        printed += f"{len(words)} words\n%%\n"
    return given, printed + "refused\n%%\n" * len(REFUSED)
