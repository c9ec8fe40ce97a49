#!/usr/bin/env python3
"""Makes stdin and stdout beside it. Lines of instructions, 50 of each name, are assembled by the GNU assembler of GNU
Binutils for Debian 2.40 (Debian 12, binutils-riscv64-linux-gnu), with `-march=rv64im`. The offsets of branches and jumps
are given to it as `.+4`, and `fence`, whose fields it takes as sets, as `.insn`. What is read and listed otherwise stands
here by hand.
"""
import random
import struct
import subprocess
import tempfile

random.seed(45)
R = lambda: f"x{random.randrange(32)}"
EDGES = [-2048, -2047, -1, 0, 1, 2047]
imm = lambda k: EDGES[k] if k < len(EDGES) else random.randrange(-2048, 2048)


def offset(k, half):
    edges = [-half, -half + 2, -2, 0, 2, 4, half - 2]
    return edges[k] if k < len(edges) else random.randrange(-half // 2, half // 2) * 2


def unsigned(k, count):
    edges = [0, 1, count - 1]
    return edges[k] if k < len(edges) else random.randrange(count)


THREE = "add sub sll slt sltu xor srl sra or and mul mulh mulhsu mulhu div divu rem remu addw subw sllw srlw sraw mulw divw divuw remw remuw".split()
NUMBER = "addi slti sltiu xori ori andi addiw".split()
BASED = "lb lh lw ld lbu lhu lwu sb sh sw sd jalr".split()
BRANCHES = "beq bne blt bge bltu bgeu".split()


def rows():
    """The line of each instruction, and what the assembler is given for it."""
    for k in range(50):
        for name in THREE:
            line = f"{name} {R()},{R()},{R()}"
            yield line, line
        for name in NUMBER:
            line = f"{name} {R()},{R()},{imm(k)}"
            yield line, line
        for name, count in [("slli", 64), ("srli", 64), ("srai", 64), ("slliw", 32), ("srliw", 32), ("sraiw", 32)]:
            line = f"{name} {R()},{R()},{unsigned(k, count)}"
            yield line, line
        for name in BASED:
            line = f"{name} {R()},{imm(k)}({R()})"
            yield line, line
        for name in BRANCHES:
            registers, n = f"{R()},{R()}", offset(k, 4096)
            yield f"{name} {registers},{n}", f"{name} {registers},.{n:+}"
        register, n = R(), offset(k, 1048576)
        yield f"jal {register},{n}", f"jal {register},.{n:+}"
        for name in ["lui", "auipc"]:
            line = f"{name} {R()},{unsigned(k, 1048576)}"
            yield line, line
        rd, rs1, n = R(), R(), unsigned(k, 4096)
        yield f"fence {rd},{rs1},{n}", f".insn i 0x0f, 0, {rd}, {rs1}, {n if n < 2048 else n - 4096}"
        for name in ["ecall", "ebreak"]:
            yield name, name


def assembled(lines):
    with tempfile.TemporaryDirectory() as room:
        with open(f"{room}/a.s", "w") as it:
            # without relaxation and relocations, so that the words stand in the section
            it.write(".option norelax\n.option norvc\n" + "\n".join(lines) + "\n")
        subprocess.run(["riscv64-linux-gnu-as", "-march=rv64im", "-mno-relax", "-o", f"{room}/a.o", f"{room}/a.s"], check=True)
        subprocess.run(["riscv64-linux-gnu-objcopy", "-O", "binary", "-j", ".text", f"{room}/a.o", f"{room}/a.bin"], check=True)
        with open(f"{room}/a.bin", "rb") as it:
            data = it.read()
    return [data[k : k + 4].hex() for k in range(0, len(data), 4)]


# Texts that are read, and what comes.
READ = [
    (".image 4\naddi x17,x0,93\n", "9308d005"),
    (".image 4\naddi x17,x0,2048\n", "fault 2 at line 2"),
    (".image 8\necall\n", "fault 3 at line 3"),
    (".image 4\nnop\n", "fault 1 at line 2"),
    # the shortest way is not asked for
    (".image 6\n.zero 1\n.zero 1\n.byte 00\n.byte 01 02 03\n", "000000010203"),
    (".image 8\n.byte 73 00 00 00\necall\n", "7300000073000000"),
    (".image 3\n.byte ff 0a a0\n", "ff0aa0"),
    # no lines, no newline, no image
    ("", "fault 1 at line 1"),
    (".image 4", "fault 1 at line 1"),
    ("\n", "fault 1 at line 1"),
    ("ecall\n", "fault 1 at line 1"),
    (".image 4\n.image 4\necall\n", "fault 1 at line 2"),
    (".image 4\necall", "fault 1 at line 2"),
    (".image 4\necall\n\n", "fault 1 at line 3"),
    # numbers of bytes
    (".image 0\n", "fault 2 at line 1"),
    (".image -1\n", "fault 2 at line 1"),
    (".image 67108865\n", "fault 2 at line 1"),
    (".image 67108864\n", "fault 3 at line 2"),
    (".image 99999999999999999999999999999999999999999\n", "fault 2 at line 1"),
    (".image 04\n", "fault 1 at line 1"),
    (".image  4\n", "fault 1 at line 1"),
    (".image +4\n", "fault 1 at line 1"),
    (".image\n", "fault 1 at line 1"),
    (".image 4\n.zero 0\n", "fault 2 at line 2"),
    (".image 4\n.zero 67108865\n", "fault 2 at line 2"),
    (".image 4\n.zero 5\n", "fault 3 at line 2"),
    (".image 4\n.zero 3\n", "fault 3 at line 3"),
    (".image 4\n.zero 3\n.zero 2\n", "fault 3 at line 3"),
    (".image 4\n.zero 0x3\n", "fault 1 at line 2"),
    (".image 4\n.zero -0\n", "fault 1 at line 2"),
    # bytes
    (".image 4\n.byte\n", "fault 1 at line 2"),
    (".image 4\n.byte 0\n", "fault 1 at line 2"),
    (".image 4\n.byte 0G\n", "fault 1 at line 2"),
    (".image 4\n.byte FF\n", "fault 1 at line 2"),
    (".image 5\n.byte 01 02 03 04 05\n", "fault 1 at line 2"),
    (".image 4\n.byte 01  02\n", "fault 1 at line 2"),
    (".image 1\n.byte 01 02\n", "fault 3 at line 2"),
    # names
    (".image 4\nADD x1,x2,x3\n", "fault 1 at line 2"),
    (".image 4\n add x1,x2,x3\n", "fault 1 at line 2"),
    (".image 4\nadd  x1,x2,x3\n", "fault 1 at line 2"),
    (".image 4\nadd\n", "fault 1 at line 2"),
    (".image 4\necall \n", "fault 1 at line 2"),
    (".image 4\necall x1\n", "fault 1 at line 2"),
    # operands
    (".image 4\nadd x1,x2\n", "fault 1 at line 2"),
    (".image 4\nadd x1,x2,x3,x4\n", "fault 1 at line 2"),
    (".image 4\nadd x1, x2,x3\n", "fault 1 at line 2"),
    (".image 4\nadd x1,x2,x3\r\n", "fault 1 at line 2"),
    (".image 4\nadd x1,x2,x32\n", "fault 2 at line 2"),
    (".image 4\nadd x1,x02,x3\n", "fault 1 at line 2"),
    (".image 4\nadd x1,x2,3\n", "fault 1 at line 2"),
    (".image 4\nadd x32,x2,3\n", "fault 1 at line 2"),
    (".image 4\naddi x1,x2,x3\n", "fault 1 at line 2"),
    (".image 4\naddi x1,x2,-2049\n", "fault 2 at line 2"),
    (".image 4\naddi x1,x2,-0\n", "fault 1 at line 2"),
    (".image 4\naddi x1,x2,007\n", "fault 1 at line 2"),
    (".image 4\nslli x1,x2,64\n", "fault 2 at line 2"),
    (".image 4\nslliw x1,x2,32\n", "fault 2 at line 2"),
    (".image 4\nlui x1,-1\n", "fault 2 at line 2"),
    (".image 4\nlui x1,1048576\n", "fault 2 at line 2"),
    (".image 4\nbeq x1,x2,3\n", "fault 2 at line 2"),
    (".image 4\nbeq x1,x2,4096\n", "fault 2 at line 2"),
    (".image 4\njal x1,1048576\n", "fault 2 at line 2"),
    (".image 4\njal x1,-1048578\n", "fault 2 at line 2"),
    (".image 4\nld x1,8(x2\n", "fault 1 at line 2"),
    (".image 4\nld x1,8(x2)x\n", "fault 1 at line 2"),
    (".image 4\nld x1,8\n", "fault 1 at line 2"),
    (".image 4\nld x1,2048(x2)\n", "fault 2 at line 2"),
    (".image 4\nfence x0,x0,4096\n", "fault 2 at line 2"),
    (".image 4\nfence\n", "fault 1 at line 2"),
    # the lowest of a line's faults
    (".image 2\naddi x1,x2,2048\n", "fault 2 at line 2"),
    (".image 2\naddi x1,x2,2048,\n", "fault 1 at line 2"),
]

# Files with a range of code, and their listings.
LISTED = [
    (0, 0, "7f454c46020101000000000000000000" "0200f30001000000100001000000000040000000",
     ".image 36\n.byte 7f 45 4c 46\n.byte 02 01 01 00\n.zero 8\n.byte 02 00 f3 00\n.byte 01 00 00 00\n.byte 10 00 01 00\n.zero 4\n.byte 40 00 00 00\n"),
    (0, 8, "7300000073000000", ".image 8\necall\necall\n"),
    (0, 7, "7300000073000000", ".image 8\necall\n.byte 73 00 00 00\n"),
    (1, 7, "7300000073000000", ".image 8\n.byte 73 00 00 00\necall\n"),
    (0, 16, "73000000000000000000000073000000", ".image 16\necall\n.zero 8\necall\n"),
    (0, 16, "0000000000000000ffffffff000000", ".image 15\n.zero 8\n.byte ff ff ff ff\n.byte 00 00 00\n"),
    (0, 4, "0f00f00f", ".image 4\nfence x0,x0,255\n"),
    (0, 4, "8f8011f8", ".image 4\nfence x1,x3,3969\n"),
    (0, 18446744073709551615, "73000000", ".image 4\necall\n"),
    (0, 4, "73", ".image 1\n.byte 73\n"),
]


def main():
    given, wanted = [], []
    lines = list(rows())
    for (line, _), word in zip(lines, assembled([it for _, it in lines])):
        given.append(f"%line {line}\n")
        wanted.append(f"{word} {line}\n")
    for text, said in READ:
        given.append(text)
        wanted.append(f"{said}\n")
    for first, count, digits, text in LISTED:
        given.append(f"%list {first} {count} {digits}\n")
        wanted.append(text)
    for _ in range(2000):
        length = random.randrange(1, 41)
        kind = random.randrange(3)
        data = bytes(random.randrange(256) for _ in range(length))
        if kind == 1:
            data = bytes(it if random.randrange(4) == 0 else 0 for it in data)
        if kind == 2:
            words = random.choices([int.from_bytes(bytes.fromhex(it), "little") for it in ("7300000013000000"[:8], "33000000", "00000000", "6f000000")], k=length // 4)
            data = b"".join(struct.pack("<I", it | random.randrange(2) << 7) for it in words) + data[: length % 4] or b"\0"
        given.append(f"%trip {data.hex()}\n")
        wanted.append("true\n")
    for name, parts in [("stdin", given), ("stdout", wanted)]:
        with open(f"{__file__.rpartition('/')[0] or '.'}/{name}", "w") as it:
            it.write("%%\n".join(parts) if name == "stdin" else "".join(parts))


main()
