#!/usr/bin/env python3
"""Sources with static objects, and what each of these holds before a run: the bytes that gcc 12.2.0 (Debian; x86-64, whose types
have the sizes and alignments of RV64) puts into an object file, where a pointer is the number of its object and the offset in it.
The types and initializers are drawn: structures, unions and arrays in one another, designators of several levels, braces left out,
parts that lie over earlier ones, strings, addresses of parts of objects and of functions. The texts of FIXED stand before them.
"""

import os
import random
import struct
import subprocess
import tempfile

OPTIONS = ["-std=c99", "-pedantic-errors", "-funsigned-char", "-fno-pic", "-fno-common", "-w"]
INTEGERS = ["char", "signed char", "unsigned char", "short", "unsigned short", "int", "unsigned", "long", "unsigned long", "long long"]
HEAD = "int f(void){return 0;}int g(void){return 1;}\nint y[4];"
TAIL = "int main(void){return 0;}"
# What designates a function is a pointer to it (C99 6.3.2.1 paragraph 4).
FIXED = [HEAD + "\n"
         "int(*x[9])(void)={*f,**g,(*f),*&g,&*f,&**g,&(***f),(int(*)(void))*g,*(int(*)(void))(long(*)(void))*f};\n"
         "char*p[]={(char*)(x+1)};\n" + TAIL]
# Where typing_vectors places static objects and functions.
STATICS, FUNCTIONS, STEP = 0x10000000, 0x20000000, 0x10000


def drawn_type(draw, depth):
    """A type: a word, or a pair of `array` and so on."""
    kind = draw.random()
    if depth == 0 or kind < 0.35:
        return draw.choice(INTEGERS + ["int*", "char*", "function*"])
    if kind < 0.55:
        return "array", draw.randint(1, 4), drawn_type(draw, depth - 1)
    members = [drawn_type(draw, depth - 1) for _ in range(draw.randint(1, 4))]
    return "struct" if kind < 0.88 else "union", members


def declared(of, name):
    """The declaration of a name of this type."""
    if of[0] == "array":
        return declared(of[2], f"{name}[{of[1]}]")
    if of[0] in ("struct", "union"):
        return of[0] + "{" + "".join(declared(m, "abcd"[i]) + ";" for i, m in enumerate(of[1])) + "}" + name
    if of == "function*":
        return f"int(*{name})(void)"
    return f"{of[:-1]}*{name}" if of.endswith("*") else f"{of} {name}"


def parts(of):
    """The designators of the parts of a type, with the types of these."""
    if of[0] == "array":
        return [(f"[{i}]", of[2]) for i in range(of[1])]
    if of[0] in ("struct", "union"):
        return [("." + "abcd"[i], m) for i, m in enumerate(of[1])]
    return []


def scalar(draw, of):
    if of == "function*":
        return draw.choice(["0", "f", "&f", "g", "&*g"])
    if of == "int*":
        return draw.choice(["0", "y", "&y[1]", "y+2", "&y[4]", "(int*)((char*)y+6)", "&*y", "(void*)0"])
    if of == "char*":
        return draw.choice(["0", "(char*)y", "(char*)&y[1]+1", "(char*)(y+3)-2"])
    return draw.choice([str(draw.randint(0, 255)), str(-draw.randint(1, 40000)), hex(draw.getrandbits(63)), f"'{draw.choice('xyz')}'",
                        f"{draw.randint(1, 9)}*{draw.randint(1, 9)}-1", f"sizeof(y)+{draw.randint(0, 9)}", f"1<2?{draw.randint(0, 99)}:0"])


def listed(draw, of):
    """Initializers of the parts of a type, without their braces."""
    found = parts(of)
    some = found[:1] if of[0] == "union" else found[:draw.randint(1, len(found))]
    out = []
    for designator, part in some:
        text = initializer(draw, part)
        out.append(f"{designator}={text}" if draw.random() < 0.25 else text)
    if draw.random() < 0.4:
        designator, part = draw.choice(found)
        while parts(part) and draw.random() < 0.7:
            more, part = draw.choice(parts(part))
            designator += more
        out.append(f"{designator}={initializer(draw, part)}")
    return ",".join(out)


def flat(draw, of):
    """Initializers of all scalars of a type in their order, without braces."""
    inner = parts(of)[:1] if of[0] == "union" else parts(of)
    return ",".join(flat(draw, part) for _, part in inner) if inner else scalar(draw, of)


def initializer(draw, of):
    if of[0] == "array" and of[2] in INTEGERS[:3] and draw.random() < 0.6:
        text = '"' + "abcd"[:draw.randint(0, of[1])] + '"'
        return "{" + text + "}" if draw.random() < 0.3 else text
    if not parts(of):
        return scalar(draw, of)
    if draw.random() < 0.2:
        return "{" + flat(draw, of) + "}"
    return "{" + listed(draw, of) + "}"


def paths(of, path):
    """The parts of an object of this type, each as an expression."""
    return [path] + [p for designator, part in parts(of) for p in paths(part, path + designator)]


def drawn_source(draw):
    of = drawn_type(draw, 3)
    while not parts(of):
        of = drawn_type(draw, 3)
    where = ",".join(f"(char*)&{p}" for p in paths(of, "x")[:12])
    return f"{HEAD}\n{declared(of, 'x')}={initializer(draw, of)};\nchar*p[]={{{where}}};\n{TAIL}"


def object_file(text):
    """The bytes of an object file of a source, or None where gcc refuses it."""
    with tempfile.TemporaryDirectory() as folder:
        made = os.path.join(folder, "made.o")
        done = subprocess.run(["gcc", *OPTIONS, "-c", "-o", made, "-x", "c", "-"], input=text, text=True, capture_output=True)
        if done.returncode:
            return None
        with open(made, "rb") as it:
            return it.read()


class ObjectFile:
    """The sections, symbols and relocations of an ELF64 file (ELF64, sections 4 to 7)."""

    def __init__(self, data):
        self.data = data
        at, count = struct.unpack_from("<Q", data, 40)[0], struct.unpack_from("<H", data, 60)[0]
        self.sections = [struct.unpack_from("<IIQQQQIIQQ", data, at + 64 * i) for i in range(count)]
        table = next(s for s in self.sections if s[1] == 2)
        names = self.sections[table[6]]
        self.symbols = []
        for i in range(table[5] // 24):
            name, info, _, section, value, size = struct.unpack_from("<IBBHQQ", data, table[4] + 24 * i)
            start = names[4] + name
            self.symbols.append((data[start:data.index(b"\0", start)].decode(), info & 15, section, value, size))

    def named(self, name):
        return next(s for s in self.symbols if s[0] == name)

    def bytes_of(self, name):
        _, _, section, value, size = self.named(name)
        return bytes(size) if self.sections[section][1] == 8 else self.data[self.sections[section][4] + value:][:size]

    def at(self, section, offset):
        """The name of the object or function at a place, and the offset in it; the end of an object counts to it."""
        for name, kind, own, value, size in self.symbols:
            if kind in (1, 2) and own == section and value <= offset <= value + size:
                return name, offset - value
        raise ValueError("no name")

    def pointers(self, name):
        """The pointers in an object: the offset of each, the name that it is into, and the offset there."""
        _, _, section, value, size = self.named(name)
        for s in self.sections:
            if s[1] == 4 and s[7] == section:
                for i in range(s[5] // 24):
                    offset, info, addend = struct.unpack_from("<QQq", self.data, s[4] + 24 * i)
                    if value <= offset < value + size:
                        to = self.symbols[info >> 32]
                        into = self.at(to[2], addend) if to[1] == 3 else (to[0], addend)
                        yield offset - value, *into


def line_of(file, name, statics):
    content = bytearray(file.bytes_of(name))
    marks = {}
    for offset, to, within in file.pointers(name):
        is_static = to in statics
        number = statics.index(to) if is_static else ["f", "g", "main"].index(to)
        word = (STATICS if is_static else FUNCTIONS) + STEP * number + within
        content[offset:offset + 8] = struct.pack("<Q", word)
        marks[offset] = f"@{number}:" if is_static else f"f{number}:"
    words = [marks.get(at, "") + content[at:at + 8].hex() for at in range(0, len(content) // 8 * 8, 8)]
    return " ".join([str(len(content)), *words, content[len(content) // 8 * 8:].hex()])


def row_of(text, data):
    """A source, and the lines of its static objects in the order of their names."""
    file = ObjectFile(data)
    return text, [line_of(file, name, ["y", "x", "p"]) for name in ("y", "x", "p")]


def rows(count):
    """The rows of FIXED and drawn ones."""
    for text in FIXED:
        yield row_of(text, object_file(text))
    draw = random.Random(3)
    while count:
        text = drawn_source(draw)
        data = object_file(text)
        if data:
            yield row_of(text, data)
            count -= 1
