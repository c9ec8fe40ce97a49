#!/usr/bin/env python3
"""The part `machine` of stdin, and what it must print, by Debian's binutils-riscv64-linux-gnu and qemu-user, and by hand.

A program of every operation on registers and immediates, each on all the values or pairs of values below, is assembled
by `riscv64-linux-gnu-as -march=rv64im`, linked, and run by `qemu-riscv64`; it writes its results. Each line has the
name of an operation, the word that the assembler gives `NAME a2,a0,a1` or `NAME a2,a0,IMMEDIATE`, and the operands in a0
and a1, in hexadecimal digits; its result in a2 is what the program must print. Where there is an immediate, a1 is zero.

Behind these rows come those of `written`: how runs end, by the RISC-V unprivileged ISA manual and docs/FORMATS.md, and
which test of an image its bytes fail first, by the order of the tests there. What they must print stands beside them.
"""

import os
import subprocess

TOOL = "riscv64-linux-gnu-"
VALUES = [0, 1, 0x7fffffff, 0x80000000, 0xffffffff, 0x123456789abcdef1, 2 ** 63 - 1, 2 ** 63, 2 ** 63 + 1,
          2 ** 64 - 2 ** 31, 2 ** 64 - 1]
OPS = ("add sub sll slt sltu xor srl sra or and mul mulh mulhsu mulhu div divu rem remu "
       "addw subw sllw srlw sraw mulw divw divuw remw remuw").split()
IMMEDIATES = "addi slti sltiu xori ori andi addiw".split()
SHIFTS = "slli srli srai".split()
SHIFTS32 = "slliw srliw sraiw".split()


def operations():
    """Each operation's text, and whether it takes a second register."""
    for name in OPS:
        yield f"{name} a2,a0,a1", True
    for names, immediates in ((IMMEDIATES, (-2048, -1, 0, 1, 2047)), (SHIFTS, (0, 1, 31, 32, 63)), (SHIFTS32, (0, 1, 31))):
        for name in names:
            for immediate in immediates:
                yield f"{name} a2,a0,{immediate}", False


def program():
    """Assembly that writes the results, 8 bytes each, in the order of `cases`."""
    yield ".option norelax\n.globl _start\n_start: la s2,results"
    for k, (text, pair) in enumerate(operations()):
        yield f"la s0,values\nla s1,values_end\na{k}: ld a0,0(s0)\nla s3,values\nb{k}: ld a1,0(s3)"
        yield f"{text}\nsd a2,0(s2)\naddi s2,s2,8"
        if pair:
            yield f"addi s3,s3,8\nbne s3,s1,b{k}"
        yield f"addi s0,s0,8\nbne s0,s1,a{k}"
    yield "la a1,results\nloop: sub a2,s2,a1\nbeqz a2,done\nli a0,1\nli a7,64\necall\nla a3,written\nld a1,0(a3)"
    yield "add a1,a1,a0\nsd a1,0(a3)\nj loop\ndone: li a0,0\nli a7,93\necall"
    yield ".data\n.balign 8\nwritten: .dword results\nvalues: " + "\n".join(f".dword {v:#x}" for v in VALUES)
    yield "values_end:\n.bss\n.balign 8\nresults: .skip 1048576"


def cases():
    for text, pair in operations():
        for a in VALUES:
            for b in VALUES if pair else [0]:
                yield text, a, b


# The text of code, its words by GNU as, and how its run ends from 0x10000 on.
RUNS = [
    ("jal x0,.+2", "0020006f", ("Jump", 0x10000)),
    ("jalr x0,2(x0)", "00200067", ("Jump", 0x10000)),
    ("beq x0,x0,.+2", "00000163", ("Jump", 0x10000)),
    ("bne x0,x0,.+2; ebreak", "00001163 00100073", ("Break", 0x10004)),
    ("jalr x0,0(x0)", "00000067", ("Access", 0)),
    ("lui t0,0x10000; jalr x0,0(t0)", "100002b7 00028067", ("Access", 0x10000000)),
    ("lui t0,0x10; jalr x0,32(t0)", "000102b7 02028067", ("Access", 0x10020)),
    ("lui t0,0x100; jalr x0,1(t0), which leaves out the last bit", "001002b7 00128067", ("Call", 0x100000)),
    ("lui t0,0x10; ld a0,0(t0)", "000102b7 0002b503", ("Access", 0x10004)),
    ("lui t0,0x10; sd a0,0(t0)", "000102b7 00a2b023", ("Access", 0x10004)),
    ("lui t0,0x10000; ld a0,-1(t0)", "100002b7 fff2b503", ("Access", 0x10004)),
    ("lui t0,0x10002; ld a0,-7(t0)", "100022b7 ff92b503", ("Access", 0x10004)),
    ("lui t0,0x10002; ld a0,-8(t0); ebreak", "100022b7 ff82b503 00100073", ("Break", 0x10008)),
    ("lui t0,0x10002; sw a0,-3(t0)", "100022b7 fea2aea3", ("Access", 0x10004)),
    ("lui t0,0x10002; sb a0,-1(t0); sb a0,0(t0)", "100022b7 fea28fa3 00a28023", ("Access", 0x10008)),
    ("addi x0,x0,0; zeros", "00000013", ("Illegal", 0x10004)),
    ("ebreak", "00100073", ("Break", 0x10000)),
    ("a7 = 1; ecall", "00100893 00000073", ("Call", 0x10004)),
    ("t0 = 0x10002000; a7 = 64; a0 = 1; a1 = t0 - 4; a2 = 8; ecall",
     "100022b7 04000893 00100513 ffc28593 00800613 00000073", ("Access", 0x10014)),
    ("t0 = 0x10002000; a7 = 64; a0 = 1; a1 = t0 - 4; a2 = 4; ecall; ebreak",
     "100022b7 04000893 00100513 ffc28593 00400613 00000073 00100073", ("Break", 0x10018)),
    ("t0 = 0x10002000; a7 = 63; a0 = 0; a1 = t0; a2 = 1; ecall",
     "100022b7 03f00893 00000513 00028593 00100613 00000073", ("Access", 0x10014)),
    ("a7 = 64; a0 = 1; a1 = 0; a2 = 0; ecall; ebreak",
     "04000893 00100513 00000593 00000613 00000073 00100073", ("Break", 0x10014)),
    # A write to descriptor 3 gives -9, with which the program exits.
    ("a7 = 64; a0 = 3; a1 = 0; a2 = 8; ecall; a7 = 93; ecall",
     "04000893 00300513 00000593 00800613 00000073 05d00893 00000073", "Exited(247)"),
    ("jal x0,.", "0000006f", "Limit"),
]

# Runs of the program of copy_row.rt, and for each of the two what it shows: its end, the output and the errors. The ninth
# instruction puts the byte to the output, the tenth would to the errors.
COPIES = [
    ("0708 none 9 64", "Limit [7] []", "Exited(7) [7] [7]"),
    ("07 take 64 64", "InputFault [] []", "InputFault [] []"),
    ("07 put 64 64", "OutputFault [] []", "OutputFault [] []"),
]

# Bytes of a file to be changed, and the fault that this makes: one change for each test of an image, in the order of the
# tests. The first, that there is a file header, has none.
CHANGES = [
    ([(3, 0x47)], "Magic"),
    ([(5, 2)], "Class"),
    ([(18, 62)], "Machine"),
    ([(16, 3)], "FileType"),
    ([(56, 65)], "Count(65)"),
    ([(54, 55)], "Range"),
    # The table, then one segment's bytes, at an offset past the end.
    ([(39, 0x7f)], "Truncated"),
    ([(64, 6), (120, 6), (176, 6), (232, 6)], "Count(0)"),
    # The code has 4 bytes in the file and 3 in memory.
    ([(160, 3)], "Range"),
    ([(135, 0x7f)], "Truncated"),
    # The runtime gets 4 GiB more.
    ([(276, 1)], f"TooLarge({0x1_0000_3024})"),
    # The rows begin where the code does.
    ([(82, 0x10)], "Overlap"),
    ([(24, 0x12)], "Range"),
]

# Images at the edge of a test.
TOP = [(249, 0xf0)] + [(place, 0xff) for place in range(250, 256)]
EDGES = [
    # The code begins behind the last byte of the rows, and at it.
    ([(136, 0x20), (138, 1)], "read"),
    ([(136, 0x1f), (138, 1)], "Overlap"),
    # The runtime ends at 2^64, and one byte past it.
    (TOP, "read"),
    ([(248, 1)] + TOP, "Range"),
    # The entry is the last word of the rows, the word behind it, within a word, and the word before the first.
    ([(24, 0x1c)], "read"),
    ([(24, 0x20)], "Range"),
    ([(24, 0x11)], "Range"),
    ([(24, 0xfc), (25, 0xff), (26, 0)], "Range"),
    # It is in the code, and in the objects, which are not executable.
    ([(24, 0), (26, 0x10)], "read"),
    ([(24, 0), (26, 0), (27, 0x10)], "Range"),
    # The table lies at the end of the file, and one byte past it.
    ([(32, 0x21), (33, 0x3f), (56, 4)], "Count(0)"),
    ([(32, 0x22), (33, 0x3f), (56, 4)], "Truncated"),
]


def changed(*changes):
    """The row of a file with these changes."""
    return " ".join(["image"] + [f"{place:x}={byte:x}" for change in changes for place, byte in change])


def written():
    """The rows whose answers are written here, each with the lines that it must print."""
    for _, words, end in RUNS:
        yield f"run {words}", [end if isinstance(end, str) else "Trap { kind: %s, pc: %d }" % end]
    for row, *lines in COPIES:
        yield f"copy {row}", lines
    # Each change alone, and with each that makes an earlier test fail, whose fault is answered.
    for place, (later, fault) in enumerate(CHANGES):
        yield changed(later), [fault]
        for earlier, first in CHANGES[:place]:
            yield changed(later, earlier), [first]
    # A file has three whole pages and one byte behind its headers' page. Each that is cut is truncated.
    yield "cuts", ["0 Truncated", "4001 read"]
    # So is one that is cut within the file header, whatever else is wrong with it.
    for change, _ in CHANGES:
        yield changed(change).replace("image", "image 3f"), ["Truncated"]
    for change, fault in EDGES:
        yield changed(change), [fault]


def run(*words):
    return subprocess.run(words, check=True, capture_output=True).stdout


def assembled(folder, lines):
    source, obj = os.path.join(folder, "a.s"), os.path.join(folder, "a.o")
    with open(source, "w") as f:
        f.write("\n".join(lines) + "\n")
    run(TOOL + "as", "-march=rv64im", "-mabi=lp64", "-o", obj, source)
    return obj


def words_of(folder):
    raw = os.path.join(folder, "a.bin")
    run(TOOL + "objcopy", "-O", "binary", "-j", ".text", assembled(folder, [t for t, _ in operations()]), raw)
    data = open(raw, "rb").read()
    return {t: int.from_bytes(data[4 * k:4 * k + 4], "little") for k, (t, _) in enumerate(operations())}


def results_of(folder):
    executable = os.path.join(folder, "a.out")
    run(TOOL + "ld", "-o", executable, assembled(folder, program()))
    data = run("qemu-riscv64", executable)
    return [int.from_bytes(data[k:k + 8], "little") for k in range(0, len(data), 8)]


def rows(folder):
    """The rows of the part, and what they must print."""
    words, results = words_of(folder), results_of(folder)
    found = list(cases())
    assert len(found) == len(results)
    others = list(written())
    given = "".join(f"{text.split()[0]} {words[text]:08x} {a:016x} {b:016x}\n" for text, a, b in found)
    given += "".join(row + "\n" for row, _ in others)
    printed = "".join(f"{result:016x}\n" for result in results)
    return given, printed + "".join(line + "\n" for _, lines in others for line in lines)
