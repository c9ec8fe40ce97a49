#!/usr/bin/env python3
"""Writes the image of the loop that bench/interpreter.c runs: 16777216 times LD, ADD, SD, ADDI, BNE, then exit(0).

    bench/loop_image.py loop.img && time bin/sbcets run loop.img

It has the four segments of an image of sbcets (docs/FORMATS.md).
"""
import struct
import sys

if len(sys.argv) != 2 or sys.argv[1].startswith("-"):
    sys.exit(__doc__)

CODE = struct.pack(
    "<9I",
    0x010002B7,  # lui t0, 0x1000
    0x100003B7,  # lui t2, 0x10000
    0x0083B303,  # ld t1, 8(t2)
    0x00530333,  # add t1, t1, t0
    0x0063B423,  # sd t1, 8(t2)
    0xFFF28293,  # addi t0, t0, -1
    0xFE0298E3,  # bne t0, zero, -16
    0x05D00893,  # addi a7, zero, 93
    0x00000073,  # ecall
)
EXECUTE, READ_WRITE = 1, 6
PARTS = [  # permissions, address, bytes, bytes in memory
    (EXECUTE, 0x10000, b"", 4096),
    (EXECUTE, 0x100000, CODE, len(CODE)),
    (READ_WRITE, 0x10000000, b"", 4096),
    (READ_WRITE, 0x40000000, b"", 65536),
]

header = b"\x7fELF" + bytes([2, 1, 1]) + bytes(9)
header += struct.pack("<HHIQQQIHHHHHH", 2, 243, 1, 0x100000, 64, 0, 0, 64, 56, len(PARTS), 0, 0, 0)
table, contents = b"", b""
for flags, address, data, size in PARTS:
    table += struct.pack("<IIQQQQQQ", 1, flags, 4096 + len(contents), address, address, len(data), size, 4096)
    contents += data + bytes(-len(data) % 4096)
with open(sys.argv[1], "wb") as file:
    file.write((header + table).ljust(4096, b"\0") + contents)
