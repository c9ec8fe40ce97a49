#!/usr/bin/env python3
"""The part `words` of stdin, and what it must print, by Debian's binutils-riscv64-linux-gnu and by hand.

The words come from the assembler, `riscv64-linux-gnu-as -march=rv64im`, from an instruction list with each immediate at
its edges; words that are no instruction of RV64IM are listed below. The texts come from the disassembler,
`riscv64-linux-gnu-objdump -D -b binary -m riscv:rv64 -M numeric,no-aliases`, each word by itself at the address
4 * (its line, from 0). Of objdump's line the word and the text are kept, without its note after '#', with one space
after the name. A word that objdump takes for an instruction outside RV64IM, as one of 16 bits, gives `unknown`.

Behind these rows come those of `written`: what the manual's table gives, by hand.
"""

import os
import re
import subprocess

TOOL = "riscv64-linux-gnu-"
LOADS = "lb lh lw ld lbu lhu lwu".split()
STORES = "sb sh sw sd".split()
BRANCHES = "beq bne blt bge bltu bgeu".split()
IMMEDIATES = "addi slti sltiu xori ori andi addiw".split()
SHIFTS = "slli srli srai".split()
SHIFTS32 = "slliw srliw sraiw".split()
OPS = ("add sub sll slt sltu xor srl sra or and mul mulh mulhsu mulhu div divu rem remu "
       "addw subw sllw srlw sraw mulw divw divuw remw remuw").split()
NAMES = set(LOADS + STORES + BRANCHES + IMMEDIATES + SHIFTS + SHIFTS32 + OPS
            + "lui auipc jal jalr fence ecall ebreak".split())


def registers():
    """Pairs and triples of registers, x0 and x31 among them."""
    k = 0
    while True:
        yield f"x{k % 32}", f"x{(5 * k + 31) % 32}", f"x{(11 * k + 17) % 32}"
        k += 1


def instructions():
    r = registers()
    for name in IMMEDIATES:
        for imm in (-2048, -1, 0, 2047):
            d, s, _ = next(r)
            yield f"{name} {d},{s},{imm}"
    for name in LOADS + STORES + ["jalr"]:
        for imm in (-2048, -1, 0, 2047):
            d, s, _ = next(r)
            yield f"{name} {d},{imm}({s})"
    # The assembler has no name for a target that is not 4-aligned without compressed instructions: .insn takes any.
    for code, name in zip((0, 1, 4, 5, 6, 7), BRANCHES):
        for offset in (-4096, -2, 0, 2, 4094):
            _, s, t = next(r)
            yield f".insn b 0x63, {code}, {s}, {t}, .{offset:+}"
    for offset in (-1048576, -2, 0, 2, 1048574):
        d, _, _ = next(r)
        yield f".insn j 0x6f, {d}, .{offset:+}"
    for name in ("lui", "auipc"):
        for imm in (0, 1, 0x7ffff, 0x80000, 0xfffff):
            d, _, _ = next(r)
            yield f"{name} {d},{imm}"
    for name, amounts in [(n, (0, 1, 31, 32, 63)) for n in SHIFTS] + [(n, (0, 1, 31)) for n in SHIFTS32]:
        for amount in amounts:
            d, s, _ = next(r)
            yield f"{name} {d},{s},{amount}"
    for name in OPS:
        for _ in range(2):
            yield f"{name} " + ",".join(next(r))
    for sets in ("iorw,iorw", "rw,w", "i,o", "r,rw"):
        yield f"fence {sets}"
    yield "ecall"
    yield "ebreak"


# Words that are no instruction of RV64IM: of other extensions, of 16 bits, with a field that no row of the table has.
OTHERS = """
00000000 ffffffff 00000001 00000002 0000001f 0000003f 0000007f 80000000 7fffffff 12345678
40001013 04001013 80001013 0c005013 80005013 44005013 24005013 08001013
0000201b 0000301b 0000401b 0000601b 0000701b 0200101b 4000101b 0200501b 6000501b 4200501b 8000501b
00007003 0000f003 00004023 00005023 00006023 00007023 00002063 00003063
00001067 00002067 00007067 00001073 00002073 00003073 00004073 00005073 00200073 10200073 30200073 00000473 00008073
c0001073 00000f73 10500073 12000073 00101073 00100173
0000100f 0000200f 0000300f 0000400f 0000500f 0000600f 0000700f
04000033 40001033 40002033 40003033 40004033 40006033 40007033 80000033 06000033 42000033 20002033 08004033 0a001033
0000203b 0000303b 0000403b 0000603b 0000703b 4000103b 4000403b 0200103b 0200203b 0200303b 0800003b 8000003b 2000203b
0000202f 0000302f 1000202f 1800302f 00002007 00003007 00002027 00003027 00000043 00000047 0000004b 0000004f
00000053 02000053 a0000053 e0000053 f2000053 0000000b 0000002b 0000005b 0000007b 00000057 00000077 0000006b
""".split()


# Instructions that the program makes, each with its word by the manual's table, and its text.
MADE = [
    ("addi", "05d00893", "addi x17,x0,93"),
    ("mul", "02b50533", "mul x10,x10,x11"),
    ("ld", "00813503", "ld x10,8(x2)"),
    ("sd", "00a13423", "sd x10,8(x2)"),
    ("beq", "fe000ee3", "beq x0,x0,{:#x}"),
    ("srai", "40355513", "srai x10,x10,0x3"),
    ("divw", "02c5c53b", "divw x10,x11,x12"),
    ("ecall", "00000073", "ecall"),
]


def written(line):
    """The rows from this line on that are written here: each of MADE by its name, and by its word; and what they print."""
    rows = [(row, word, text) for name, word, text in MADE for row in (name, word)]
    for place, (row, word, text) in enumerate(rows, line):
        # The branch goes one instruction back.
        yield row, f"{word} " + text.format(4 * place - 4)


def run(*words):
    return subprocess.run(words, check=True, capture_output=True, text=True).stdout


def assembled(folder, lines):
    source, obj, raw = (os.path.join(folder, n) for n in ("a.s", "a.o", "a.bin"))
    # A branch whose target is the edge of its range stays what it is: nothing is relaxed.
    with open(source, "w") as f:
        f.write(".option norelax\n" + "\n".join(lines) + "\n")
    run(TOOL + "as", "-march=rv64im", "-mabi=lp64", "-o", obj, source)
    run(TOOL + "objcopy", "-O", "binary", "-j", ".text", obj, raw)
    data = open(raw, "rb").read()
    return [int.from_bytes(data[k:k + 4], "little") for k in range(0, len(data), 4)]


def text_of(folder, word, line):
    raw = os.path.join(folder, "w.bin")
    with open(raw, "wb") as f:
        f.write(word.to_bytes(4, "little"))
    out = run(TOOL + "objdump", "-D", "-b", "binary", "-m", "riscv:rv64", "-M", "numeric,no-aliases",
              f"--adjust-vma={4 * line:#x}", raw)
    first = next(m for m in map(re.compile(r"\s*[0-9a-f]+:\t([0-9a-f]+)\s+(.*)").match, out.splitlines()) if m)
    code, text = first.group(1), re.sub(r"\s*#.*", "", first.group(2)).replace("\t", " ").strip()
    known = len(code) == 8 and text.split()[0] in NAMES
    return f"{code} {text}" if known else "unknown"


def rows(folder):
    """The rows of the part, and what they must print."""
    words = assembled(folder, list(instructions())) + [int(w, 16) for w in OTHERS]
    others = list(written(len(words)))
    given = "".join(f"{w:08x}\n" for w in words) + "".join(row + "\n" for row, _ in others)
    printed = "".join(text_of(folder, w, k) + "\n" for k, w in enumerate(words)) + "".join(line + "\n" for _, line in others)
    return given, printed
