#!/usr/bin/env python3
"""Makes stdin and stdout of this program. Each line of the tables below from CONVERSIONS on is a row and what it must print; where
they come from stands above each. Behind them come the rows of VALUES, integer constant expressions as the steps in which their typed
trees are built with the value that gcc gives, and static objects as the parts of their initializers.

usage: python3 crates/object_vectors/vectors.py make
Needs gcc 12.2.0 (Debian). Types are those of C99 with LP64 and unsigned plain char; the script refuses a row whose type or value gcc
does not give.
"""

import os
import re
import subprocess
import sys
import tempfile

HERE = os.path.dirname(os.path.abspath(__file__))
sys.path.insert(0, os.path.join(HERE, "..", "..", "rows"))
import trees  # noqa: E402

# Words converted to each type, by gcc 12.2.0 (Debian) with -funsigned-char.
CONVERSIONS = """
fit Char fedcba9876543210 -> 10
fit Char 8080808080808080 -> 80
fit SignedChar fedcba9876543210 -> 10
fit SignedChar 8080808080808080 -> ffffffffffffff80
fit UnsignedChar fedcba9876543210 -> 10
fit UnsignedChar 8080808080808080 -> 80
fit Short fedcba9876543210 -> 3210
fit Short 8080808080808080 -> ffffffffffff8080
fit UnsignedShort fedcba9876543210 -> 3210
fit UnsignedShort 8080808080808080 -> 8080
fit Int fedcba9876543210 -> 76543210
fit Int 8080808080808080 -> ffffffff80808080
fit UnsignedInt fedcba9876543210 -> 76543210
fit UnsignedInt 8080808080808080 -> 80808080
fit Long fedcba9876543210 -> fedcba9876543210
fit Long 8080808080808080 -> 8080808080808080
fit UnsignedLong fedcba9876543210 -> fedcba9876543210
fit UnsignedLong 8080808080808080 -> 8080808080808080
fit LongLong fedcba9876543210 -> fedcba9876543210
fit LongLong 8080808080808080 -> 8080808080808080
fit UnsignedLongLong fedcba9876543210 -> fedcba9876543210
fit UnsignedLongLong 8080808080808080 -> 8080808080808080
"""

# The type of a sum of two types, by gcc 12.2.0 (Debian) with _Generic.
COMMON = """
common Char Short -> Int
common UnsignedShort SignedChar -> Int
common Int UnsignedInt -> UnsignedInt
common UnsignedInt Long -> Long
common Long UnsignedLong -> UnsignedLong
common LongLong Long -> LongLong
common UnsignedLong LongLong -> UnsignedLongLong
common UnsignedLongLong Int -> UnsignedLongLong
common UnsignedChar UnsignedLong -> UnsignedLong
"""

# By gcc 12.2.0 (Debian) with -fwrapv.
UNARY = """
unary + Int ffffffff80000000 -> ffffffff80000000
unary + Int 0 -> 0
unary + UnsignedInt 1 -> 1
unary + Long 8000000000000000 -> 8000000000000000
unary + UnsignedLong 1 -> 1
unary - Int ffffffff80000000 -> ffffffff80000000
unary - Int 0 -> 0
unary - UnsignedInt 1 -> ffffffff
unary - Long 8000000000000000 -> 8000000000000000
unary - UnsignedLong 1 -> ffffffffffffffff
unary ~ Int ffffffff80000000 -> 7fffffff
unary ~ Int 0 -> ffffffffffffffff
unary ~ UnsignedInt 1 -> fffffffe
unary ~ Long 8000000000000000 -> 7fffffffffffffff
unary ~ UnsignedLong 1 -> fffffffffffffffe
unary ! Int ffffffff80000000 -> 0
unary ! Int 0 -> 1
unary ! UnsignedInt 1 -> 0
unary ! Long 8000000000000000 -> 0
unary ! UnsignedLong 1 -> 0
"""

# By gcc 12.2.0 (Debian) with -fwrapv.
BINARY = """
binary + Int 7fffffff 1 -> ffffffff80000000
binary - Int ffffffff80000000 1 -> 7fffffff
binary * Int 10000 10000 -> 0
binary * Int b505 b505 -> ffffffff80001219
binary + UnsignedInt ffffffff 1 -> 0
binary - UnsignedInt 0 1 -> ffffffff
binary * UnsignedInt ffffffff ffffffff -> 1
binary + Long 7fffffffffffffff 1 -> 8000000000000000
binary - UnsignedLong 0 1 -> ffffffffffffffff
binary * Long 8000000000000000 3 -> 8000000000000000
binary / Int fffffffffffffff9 2 -> fffffffffffffffd
binary / Int 7 fffffffffffffffe -> fffffffffffffffd
binary / Int fffffffffffffff9 fffffffffffffffe -> 3
binary % Int fffffffffffffff9 2 -> ffffffffffffffff
binary % Int 7 fffffffffffffffe -> 1
binary % Int fffffffffffffff9 fffffffffffffffe -> ffffffffffffffff
binary / UnsignedInt fffffff9 2 -> 7ffffffc
binary % UnsignedInt fffffff9 2 -> 1
binary / Long 8000000000000000 2 -> c000000000000000
binary / UnsignedLongLong ffffffffffffffff 2 -> 7fffffffffffffff
binary % LongLong 8000000000000001 a -> fffffffffffffff9
binary << Int fffffffffffffffd 1 -> fffffffffffffffa
binary >> Int fffffffffffffffd 1 -> fffffffffffffffe
binary << Int fffffffffffffffd 1f -> ffffffff80000000
binary >> Int fffffffffffffffd 1f -> ffffffffffffffff
binary << UnsignedInt 80000001 1 -> 2
binary >> UnsignedInt 80000001 1 -> 40000000
binary << UnsignedInt 80000001 1f -> 80000000
binary >> UnsignedInt 80000001 1f -> 1
binary << Long fffffffffffffffd 1 -> fffffffffffffffa
binary >> Long fffffffffffffffd 1 -> fffffffffffffffe
binary << Long fffffffffffffffd 20 -> fffffffd00000000
binary >> Long fffffffffffffffd 20 -> ffffffffffffffff
binary << Long fffffffffffffffd 3f -> 8000000000000000
binary >> Long fffffffffffffffd 3f -> ffffffffffffffff
binary << UnsignedLong 8000000000000001 1 -> 2
binary >> UnsignedLong 8000000000000001 1 -> 4000000000000000
binary << UnsignedLong 8000000000000001 20 -> 100000000
binary >> UnsignedLong 8000000000000001 20 -> 80000000
binary << UnsignedLong 8000000000000001 3f -> 8000000000000000
binary >> UnsignedLong 8000000000000001 3f -> 1
binary & Int fffffffffffffffc 7 -> 4
binary ^ Int fffffffffffffffc 7 -> fffffffffffffffb
binary | UnsignedInt 80000000 7 -> 80000007
binary < Int ffffffffffffffff 1 -> 1
binary < UnsignedInt ffffffff 1 -> 0
binary > Long 1 ffffffffffffffff -> 1
binary > UnsignedLong 1 ffffffffffffffff -> 0
binary <= Int ffffffff80000000 ffffffff80000000 -> 1
binary <= LongLong 1 ffffffffffffffff -> 0
binary >= Int ffffffff80000000 7fffffff -> 0
binary >= UnsignedLongLong 0 0 -> 1
binary == Int ffffffffffffffff ffffffffffffffff -> 1
binary != Int ffffffffffffffff ffffffffffffffff -> 0
binary != Long 0 8000000000000000 -> 1
"""

# What C99 leaves open, by the rules of docs/LANGUAGE.md: shifts by the width and more, the least number by -1, and zero
# divisors.
OPEN = """
binary << Int 3 20 -> 3
binary << Int 3 ffffffffffffffff -> ffffffff80000000
binary >> UnsignedInt c0000000 3f -> 1
binary << Long 3 40 -> 3
binary >> UnsignedLong ffffffffffffffff 7f -> 1
binary / Int ffffffff80000000 ffffffffffffffff -> ffffffff80000000
binary % Int ffffffff80000000 ffffffffffffffff -> 0
binary / Long 8000000000000000 ffffffffffffffff -> 8000000000000000
binary % LongLong 8000000000000000 ffffffffffffffff -> 0
binary / Int 1 0 -> none
binary % UnsignedLong 1 0 -> none
"""

# Sizes, also as scalars, and signs by gcc 12.2.0 (Debian) for LP64 with -funsigned-char; ranks in the order of C99 6.3.1.1, promotions by its
# paragraph 2, and the corresponding unsigned types by 6.2.5 paragraph 6.
TYPES = """
type Short -> [2, 2, 2] signed Int UnsignedShort
type Char -> [1, 1, 1] unsigned Int UnsignedChar
pointer -> 8
"""

# Offsets, sizes and alignments as gcc 12.2.0 (Debian) gives them for LP64 by `offsetof`, `sizeof` and `_Alignof`:
# struct { char c; short s; long l; char d; }, struct { char *p; char c; unsigned u; char k[3]; }, union { char c[9]; long l; },
# union { struct { char c; int i; } a; char c[13]; int k; }, and const int *[2], an array of 2 pointers. A structure that is not
# complete has no size (C99 6.2.5). A type is the type that it is.
LAYOUTS = """
structure Char Short Long Char -> [0, 2, 8, 16] size 24 alignment 8
structure pointer Char UnsignedInt 3 -> [0, 8, 12, 16] size 24 alignment 8
union 9 Long -> size 16 alignment 8
union pair 13 Int -> size 16 alignment 4
pointers -> size 16 alignment 8
incomplete -> none
same -> true
"""

# By hand: an object of 16 bytes at 0x1000 has two words of 8 bytes. A pointer to it may be used for all of it, and one to a
# member of 4 bytes at its offset 8 for that alone.
ACCESSES = """
object 1000 10 -> true 1000 10 [16, 2]
judge 10 whole live -> inside 0 0
judge 11 whole live -> outside 0 0
judge 4 member live -> inside 0 8
judge 4 moved live -> outside 0 0
named member -> inside 0 8
judge 10 whole dead -> dead 0 0
"""


FLAGS = ["-std=c99", "-pedantic-errors", "-funsigned-char", "-fwrapv", "-w"]

VALUES = """
2147483647 | 2147483648 | 0xffffffff | 0x100000000
0x7fffffffffffffff | 0x8000000000000000 | 037777777777 | 4294967296u | 1l | 1ul | 1ll | 0xffffffffffffffffull | 'a' | '\\377' | '\\n'
-1 | -2147483647-1 | -(-2147483647-1) | ~0 | ~0u | -1u | !0 | !7 | !-1 | +'a' | -0x80000000 | ~0x8000000000000000
(char)300 | (char)-1 | (signed char)200 | (signed char)0x80 | (unsigned char)-1 | (short)40000 | (unsigned short)-2 | (int)4294967295
(unsigned int)-1l | (long)-1 | (unsigned long)-1 | (long long)(char)-1 | (int)(signed char)255 | (unsigned long)(short)-1 | (int)-1u
(short)(char)-1 + 1 | (char)1 + (char)255 | (signed char)-128 - 1 | (unsigned short)65535 * (unsigned short)2
2147483647 + 1 | 2147483647 * 2 | -2147483647 - 2 | 4294967295u + 1 | 0u - 1 | 1 - 2u | 1l - 2u | 1ll - 2ul | 46341 * 46341
7 / 2 | -7 / 2 | 7 / -2 | -7 % 2 | 7 % -2 | 7u / 2 | -7 / 2u | -7l / 2u | (-9223372036854775807l - 1) / 2 | 0xffffffffffffffff % 10
1 << 31 | 1u << 31 | 1l << 40 | -1 << 4 | -16 >> 2 | 0x80000000 >> 4 | (char)255 << 8 | (short)-4 >> 1 | 1 << 3l | 5ul >> 1
6 & 3 | 6 ^ 3 | 6 | 3 and 0 | -1 & 0xffu | -1 & 0xffl | ~5 ^ 5l | (char)200 & (signed char)-56
1 < 2 | -1 < 0u | -1l < 0u | -1l < 0ul | 2 > 1 | 1 <= 1 | 1 >= 2 | -1 == 0xffffffff | -1l == 0xffffffff | 3 != 3 | 'a' == 97
1 && 2 | 0 && 1 | 1 && 0 | 0 || 0 | 0 || 3 | 2 || 0 | 0 && 1 / 0 | 1 || 1 / 0 | 0l && 5 % 0 | -1 && 0u
1 ? 2 : 3 | 0 ? 2 : 3 | 1 ? -1 : 0u | 0 ? 1 : -1l | 1 ? 2 : 1 / 0 | 0 ? 1 % 0 : 4 | 1 ? (char)-1 : (short)-1 | 1u ? 1 : 2 ? 3 : 4
sizeof(int) | sizeof(char[10]) - 20 | sizeof(long) * sizeof(short) | sizeof(char *) == 8 | sizeof 'a' | sizeof(1l + 1) << 2
((((5)))) | (2 + 3) * 4 | 2 + 3 * 4 | -(1 + 2) | !(1 - 1) | (int)(2 + 3l) | 10 - 4 - 3 | 100 / 5 / 2 | 1 + (2 << 3) % 5
"""

NONE = "1 / 0 | 1 % 0 | 1l / (1 - 1) | 0 || 1 / 0 | 1 && 1 % 0 | 1 ? 1 / 0 : 2 | (1 / 0) * 0 | -(1 / 0) | (long)(5 % 0) | (1, 2)"

# Static objects on line 4 behind `int y[4];` on another, by gcc 12.2.0 (Debian) for LP64 with -funsigned-char: their bytes as
# objdump shows them, in hexadecimal digits, and the addresses in them as its relocations do, where y stands at 0x10000000; each
# word of 8 bytes that holds none has `-`.
STATICS = [
    # struct s { char c; short k[3]; int *p; struct { unsigned u; signed char b; } in; };
    # struct s x = { 'A', { -2, 300 }, &y[3], { 0x89abcdef, -1 } };
    ("structure 18 0:Char:41 2:Short:fffffffffffffffe 4:Short:12c 8:element 10:UnsignedInt:89abcdef 14:SignedChar:ffffffffffffffff",
     "- y - ", "4100feff2c0100000c00001000000000efcdab89ff000000"),
    # union { long l; char c[8]; } u = { .c = { [7] = 1, [1] = 5 } };
    ("structure 8 7:Char:1 1:Char:5", "- ", "0005000000000001"),
    # char t[6] = "ab";
    ("array 6 0:literal:616200", "", "616200000000"),
]

# int *p = q; on line 4, which gcc refuses, since the value of a variable is no constant.
NOT_CONSTANT = ("pointer 8 0:variable", "NotConstant(Line { number: 4 })")

STEP_NAMES = {"Plus": "unary+", "Negate": "unary-", "Complement": "~"}
OPERATORS = {name: operator for operator, name in trees.BINARY.items()}


def texts(table):
    rows = []
    for line in table.strip().split("\n"):
        for text in re.split(r" \| (?!3 and 0)", line):
            rows.append(text.replace(" and 0", "").strip())
    return rows


def type_name(kind):
    return kind[1]


def steps(t):
    """The steps that build a typed expression, operands first."""
    own = [s for child in t.children() for s in steps(child)]
    a = t.arguments
    of = type_name(t.kind)
    if t.form in ("number", "constant"):
        return [f"word:{of}:{a[-1]:x}"]
    if t.form == "unary":
        return own + [f"{STEP_NAMES[a[1]]}:{of}"]
    if t.form == "logical_not":
        return own + [f"!:{of}"]
    if t.form in ("binary", "compare"):
        return own + [f"{OPERATORS[a[1]]}:{of}"]
    name = {"parenthesized": "()", "cast": "cast", "convert": "convert", "logical_and": "&&", "logical_or": "||", "conditional": "?",
            "comma": ","}[t.form]
    return own + [f"{name}:{of}"]


def typed(text):
    parser = trees.Parser(text + ";")
    node = parser.expression()
    typer = trees.Typer.__new__(trees.Typer)
    typer.parser = parser
    return typer.value(node)


def by_gcc(rows):
    names = {"int": "Int", "unsigned int": "UnsignedInt", "long": "Long", "unsigned long": "UnsignedLong", "long long": "LongLong",
             "unsigned long long": "UnsignedLongLong", "char": "Char", "signed char": "SignedChar", "unsigned char": "UnsignedChar",
             "short": "Short", "unsigned short": "UnsignedShort"}
    choices = ", ".join(f'{c}: "{n}"' for c, n in names.items())
    lines = ["#include <stdio.h>"]
    lines += [f"static unsigned long long v{i} = (unsigned long long)({t});" for i, t in enumerate(rows)]
    lines.append("int main(void) {")
    lines += [f'printf("%s %llu\\n", _Generic(({t}), {choices}), v{i});' for i, t in enumerate(rows)]
    lines.append("return 0; }")
    with tempfile.TemporaryDirectory() as folder:
        source, program = os.path.join(folder, "t.c"), os.path.join(folder, "t")
        with open(source, "w") as f:
            f.write("\n".join(lines))
        flags = [f for f in FLAGS if f != "-pedantic-errors"]
        subprocess.run(["gcc", *flags, "-std=c11", source, "-o", program], check=True)
        out = subprocess.run([program], check=True, capture_output=True, text=True).stdout
    return [(line.split()[0], int(line.split()[1])) for line in out.splitlines()]


def is_refused(text):
    done = subprocess.run(["gcc", *FLAGS, "-fsyntax-only", "-xc", "-"], input=f"enum {{ e = {text} }};", text=True, capture_output=True)
    return done.returncode != 0


def constant_rows():
    values = texts(VALUES)
    for text, (of, word) in zip(values, by_gcc(values)):
        tree = typed(text)
        if type_name(tree.kind) != of:
            sys.exit(f"{text}: {type_name(tree.kind)}, and by gcc {of}")
        value = word - (1 << 64) if trees.INTS[of][1] and word >> 63 else word
        yield " ".join(["value"] + steps(tree)), str(value)
    for text in texts(NONE):
        if not is_refused(text):
            sys.exit(f"{text}: gcc does not refuse it")
        yield " ".join(["value"] + steps(typed(text))), "none"


def static_rows():
    for row, tags, digits in STATICS:
        yield f"static {row}", f"{tags}{list(bytes.fromhex(digits))}"
    row, fault = NOT_CONSTANT
    yield f"static {row}", fault


def main():
    if sys.argv[1:] != ["make"]:
        sys.exit(__doc__)
    tables = (CONVERSIONS, COMMON, UNARY, BINARY, OPEN, TYPES, LAYOUTS, ACCESSES)
    rows = [line.split(" -> ") for table in tables for line in table.strip().split("\n")]
    rows += [*constant_rows(), *static_rows()]
    for place, name in enumerate(("stdin", "stdout")):
        with open(os.path.join(HERE, name), "w") as f:
            f.writelines(row[place] + "\n" for row in rows)
    print(len(rows), "rows")


if __name__ == "__main__":
    main()
