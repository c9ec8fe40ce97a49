#!/usr/bin/env python3
"""Rows for the routines of the library and the actions on memory: `vectors.py make` writes `stdin`, and `stdout` as the
model of the source in `model.py` has it. No row is taken from what the program tells."""

import os
import sys

import model
from model import POINTER, Function, Value
from row import NOTHING, Area, Given, Number, Part, PartOfContents, Scene, contents, pointer, word

LINE = 7
# steps that the routines' clauses allow: a constant, and a factor for each unit of the source's work, each byte or each
# digit; bench/routine_steps.py holds them against the definitions
PROMISES = {
    "memmove": (66, 16), "memcpy": (66, 16), "memset": (24, 5), "copy_structure": (41, 16), "strlen": (17, 8), "puts": (21, 8),
    "strcpy": (49, 8), "strcat": (65, 8), "strncpy": (60, 8), "strchr": (20, 6), "strcmp": (24, 5),
    "memcmp": (26, 4), "malloc": (60, 20), "calloc": (70, 20), "free": (20, 26), "realloc": (100, 30),
    "enter": (100, 40), "leave": (11, 0), "scan": (16, 8), "scan_at_most": (16, 8), "spatial_check": (5, 0),
    "spatial_check_of_number": (5, 0), "temporal_check": (3, 0), "make_zero": (16, 5), "take_structure": (48, 16),
    "put_structure": (40, 16), "take_part": (40, 13), "move_bytes": (16, 7), "move_tagged": (40, 16), "fill": (8, 5),
    "zero": (16, 4), "put_bytes": (2, 5), "number": (12, 15), "digits": (4, 15), "forward": (7, 0), "back": (7, 0),
    "difference": (7, 0), "narrow": (8, 0)}
# of an integer, and of a pointer
ACCESSES = {"load": (1, 21), "store": (1, 27), "checked_load": (9, 29), "checked_store": (9, 35), "read_part": (1, 20)}
# of a format: a constant, for each piece and for each unit of the work
PRINTED = (4, 32, 16)
# the instructions that hand a pointer over
HANDED = 5


def promised(name):
    constant, factor = PROMISES[name]
    return lambda work: constant + factor * work


def promised_by_kind(name, scalar):
    steps = ACCESSES[name][scalar == POINTER]
    return lambda work: steps


def pattern(seed, size):
    """Bytes other than 0 that differ from their neighbours."""
    return bytes(1 + (seed * 37 + index * 29) % 251 for index in range(size))


def string(seed, length):
    return bytes(97 + (seed * 7 + index * 5) % 26 for index in range(length))


# ---- rows of each routine, at a scene

def memmove(scene, d, source, size, line=LINE):
    scene.perform("memmove", line, promised("memmove"), [d, source, Number(size)],
                  lambda s: pointer(model.memmove(s, d, source, size, line)))


def memcpy(scene, d, source, size, line=LINE):
    """Here as memmove."""
    scene.perform("memcpy", line, promised("memcpy"), [d, source, Number(size)],
                  lambda s: pointer(model.memmove(s, d, source, size, line)))


def memset(scene, d, byte, size, line=LINE):
    scene.perform("memset", line, promised("memset"), [d, Number(byte), Number(size)],
                  lambda s: pointer(model.memset(s, d, byte, size, line)))


def memcmp(scene, a, b, size, line=LINE):
    scene.perform("memcmp", line, promised("memcmp"), [a, b, Number(size)],
                  lambda s: word(model.memcmp(s, a, b, size, line).word))


def copy_structure(scene, d, source, size):
    def run(s):
        model.copy_structure(s, size, False, d, LINE, source)
        return NOTHING

    scene.perform("copy_structure", LINE, promised("copy_structure"), [d, source, Number(size)], run)


def of_range(scene, name, size, operands, run):
    """A routine on memory alone, whose promise is by the bytes."""
    def ran(s):
        run(s)
        return NOTHING

    scene.perform(name, LINE, lambda work: promised(name)(size), operands, ran)


def move_bytes(scene, to, at, size):
    def run(s):
        tags = [list(o.tags) for o in s.objects]
        model.move_range(s, size, to, at)
        for o, old in zip(s.objects, tags):
            o.tags = old

    of_range(scene, "move_bytes", size, [address(scene, to), address(scene, at), Number(size)], run)


def move_tagged(scene, to, at, size):
    of_range(scene, "move_tagged", size, [address(scene, to), address(scene, at), Number(size)],
             lambda s: model.move_range(s, size, to, at))


def fill(scene, to, byte, size):
    of_range(scene, "fill", size, [address(scene, to), Number(byte), Number(size)],
             lambda s: model.write_bytes(s, bytes([byte % 256]) * size, to))


def address(scene, place):
    number, offset = place
    return Number(scene.state.objects[number].address + offset)


def strlen(scene, p, line=LINE):
    scene.perform("strlen", line, promised("strlen"), [p], lambda s: word(model.strlen(s, p, line).word))


def strcpy(scene, d, source, line=LINE):
    scene.perform("strcpy", line, promised("strcpy"), [d, source],
                  lambda s: pointer(model.strcpy(s, d, source, line)))


def strcat(scene, d, source, line=LINE):
    scene.perform("strcat", line, promised("strcat"), [d, source],
                  lambda s: pointer(model.strcat(s, d, source, line)))


def strncpy(scene, d, source, size, line=LINE):
    scene.perform("strncpy", line, promised("strncpy"), [d, source, Number(size)],
                  lambda s: pointer(model.strncpy(s, d, source, size, line)))


def strcmp(scene, a, b, line=LINE):
    scene.perform("strcmp", line, promised("strcmp"), [a, b], lambda s: word(model.strcmp(s, a, b, line).word))


def strchr(scene, p, byte, line=LINE):
    scene.perform("strchr", line, promised("strchr"), [p, Number(byte)],
                  lambda s: pointer(model.strchr(s, p, byte, line)))


def scan(scene, p, line=LINE):
    """The cursor comes to the 0 byte."""
    scene.perform("scan", line, promised("scan"), [p], lambda s: word(p.word + len(model.scan(s, p, line))))


def scan_at_most(scene, p, limit, line=LINE):
    scene.perform("scan_at_most", line, promised("scan_at_most"), [p, Number(limit)],
                  lambda s: word(p.word + len(model.scan_within(s, limit, lambda: None, p, line))))


def puts(scene, p, line=LINE):
    scene.perform("puts", line, promised("puts"), [p], lambda s: word(model.puts(s, p, line).word))


def put_bytes(scene, place, size):
    number, offset = place
    first = scene.state.objects[number].address + offset
    of_range(scene, "put_bytes", size, [Number(first), Number(first + size)],
             lambda s: model.put_bytes(s, model.bytes_at(s, size, place)))


def printf(scene, pieces, line=LINE):
    """Pieces are bytes, or directives with their arguments."""
    operands = []
    for piece in pieces:
        if isinstance(piece, int):
            operands.append(Part(f".{piece:x}"))
        else:
            directive, value = piece
            operands += [Part(f"%{directive}"), value if directive == "s" else Number(value.word)]
    constant, each, factor = PRINTED
    scene.perform("printf", line, lambda work: constant + each * len(pieces) + factor * work, operands,
                  lambda s: word(model.print_formatted(s, pieces, line).word))


def number(scene, directive, value):
    """The digits are added to a count in a register, which begins with 0."""
    def run(s):
        new = model.argument_bytes(s, directive, Value(value), LINE)
        model.put_bytes(s, new)
        return word(len(new))

    scene.perform("number", LINE, promised("number"), [Part(f"%{directive}"), Number(value)], run)


def digits(scene, value, base):
    def run(s):
        new = (f"{value:x}" if base == 16 else str(value)).encode()
        model.put_bytes(s, new)
        return word(len(new))

    scene.perform("digits", LINE, promised("digits"), [Number(value), Number(base)], run)


def load(scene, scalar, p, is_judged, line=LINE):
    def run(s):
        v = model.load(s, scalar, is_judged, p, line)
        return pointer(v) if scalar == POINTER else word(v.word)

    name = "checked_load" if is_judged else "load"
    scene.perform(name, line, promised_by_kind(name, scalar), of(scalar) + [p], run, is_of_program=True)


def store(scene, scalar, p, v, is_judged, line=LINE, is_kept=False):
    def run(s):
        model.store(s, scalar, is_judged, p, line, v)
        return NOTHING

    name = "checked_store" if is_judged else "store"
    value = v if scalar == POINTER else Number(v.word)
    scene.perform(name, line, promised_by_kind(name, scalar), of(scalar) + [p, value], run, is_of_program=True,
                  is_kept=is_kept)


def of(scalar):
    return [] if scalar == POINTER else [Part(f":{scalar}")]


def spatial_check(scene, p, size, line=LINE):
    def run(s):
        model.test_bounds(s, size, p, line)
        return NOTHING

    for name in ("spatial_check", "spatial_check_of_number"):
        scene.perform(name, line, promised(name), [p, Number(size)], run)


def temporal_check(scene, p, line=LINE):
    def run(s):
        model.test_life(s, p, line)
        return NOTHING

    scene.perform("temporal_check", line, promised("temporal_check"), [p], run)


def narrow(scene, p, offset, size):
    """With the instructions that hand the pointer over."""
    scene.perform("narrow", LINE, lambda work: HANDED + promised("narrow")(work), [p, Number(offset), Number(size)],
                  lambda s: pointer(model.narrowed(offset, size, p)), is_of_program=True)


def offsets(scene, address, index, size):
    """Elements forward and back."""
    operands = [Number(address), Number(index), Number(size)]
    scene.perform("forward", LINE, promised("forward"), operands,
                  lambda s: word((address + index * size) % model.WORD), is_of_program=True)
    scene.perform("back", LINE, promised("back"), operands,
                  lambda s: word((address - index * size) % model.WORD), is_of_program=True)


def difference(scene, left, right, size):
    scene.perform("difference", LINE, promised("difference"), [Number(left), Number(right), Number(size)],
                  lambda s: word(model.difference(size, left, right)), is_of_program=True)


def make_zero(scene, area, size):
    return scene.perform("make_zero", LINE, promised("make_zero"), [area, Number(size)],
                         lambda s: contents(model.make_zero(s, size)))


def take_structure(scene, area, p, size, is_kept=False):
    """Gives the contents, which stay in the area where the row is kept."""
    given = scene.perform("take_structure", LINE, promised("take_structure"), [area, Number(p.word), Number(size)],
                          lambda s: contents(model.taken(s, size, p, LINE)), is_kept)
    return given.value


def take_part(scene, to, area, whole, offset, size, is_kept=False):
    given = scene.perform("take_part", LINE, promised("take_part"),
                          [to, PartOfContents(area, offset, whole.size), Number(size)],
                          lambda s: contents(model.taken_part(s, whole, size, offset)), is_kept)
    return given.value


def put_structure(scene, p, area, whole, offset, size):
    def run(s):
        model.put_contents(s, whole, size, p, LINE, offset)
        return NOTHING

    scene.perform("put_structure", LINE, promised("put_structure"),
                  [Number(p.word), PartOfContents(area, offset, whole.size), Number(size)], run)


def read_part(scene, scalar, area, whole, offset):
    def run(s):
        v = model.scalar_in(whole, scalar, offset)
        return pointer(v) if scalar == POINTER else word(v.word)

    scene.perform("read_part", LINE, promised_by_kind("read_part", scalar),
                  of(scalar) + [PartOfContents(area, offset, whole.size)], run, is_of_program=True)


def narrow_part(scene, area, whole, offset, member, size):
    """With the instructions that hand the part over."""
    scene.perform("narrow_part", LINE, lambda work: HANDED + promised("narrow")(work),
                  [PartOfContents(area, offset, whole.size), Number(member), Number(size)],
                  lambda s: Given("part", PartOfContents(area, offset + member, whole.size)), is_of_program=True)


def malloc(scene, size, line=LINE, is_kept=False):
    return scene.perform("malloc", line, promised("malloc"), [Number(size)],
                         lambda s: pointer(model.allocate(s, size, line)), is_kept)


def calloc(scene, count, size, line=LINE, is_kept=False):
    return scene.perform("calloc", line, promised("calloc"), [Number(count), Number(size)],
                         lambda s: pointer(model.calloc(s, count, size, line)), is_kept)


def realloc(scene, old, size, line=LINE, is_kept=False):
    return scene.perform("realloc", line, promised("realloc"), [old, Number(size)],
                         lambda s: pointer(model.realloc(s, old, size, line)), is_kept)


def free(scene, p, line=LINE, is_kept=False):
    def run(s):
        model.free(s, p, line)
        return NOTHING

    scene.perform("free", line, promised("free"), [p], run, is_kept)


def enter(scene, sizes, line=LINE, is_kept=False):
    """A block with objects of these sizes."""
    def run(s):
        first = model.rounded_up(16, s.stacked)
        model.enter_block(s, sizes, line)
        return Given("block", first, s.stacked)

    operands = [Number(scene.state.stacked), Number(model.objects_end(sizes, 0))]
    scene.perform("enter", line, promised("enter"), operands, run, is_kept)


def leave(scene, numbers, top, is_kept=False):
    def run(s):
        model.leave_block(s, numbers, top)
        return NOTHING

    scene.perform("leave", LINE, promised("leave"), [Part(f"lock{numbers[0]:x}")], run, is_kept)


def zero(scene, n):
    o = scene.state.objects[n]
    of_range(scene, "zero", o.size, [Number(o.address), Number(o.size)], lambda s: model.with_zeroed(s, n))


# ---- what the scenes begin with

FUNCTION = Function(0x10050, 3)


def begun(**budgets):
    """Static objects, two of them with the pointers with which each scene begins, and one over the end of a page."""
    scene = Scene(**budgets)
    for first, size in ((0x10000000, 24), (0x10000040, 32), (0x10001fe0, 32), (0x10000fd0, 96), (0x10000100, 88),
                        (0x10000200, 88)):
        scene.static(first, size)
    objects = scene.state.objects
    objects[0].tags[2] = model.OfObject(1, 0x10000040, 0x10000060)
    objects[2].tags[3] = model.OfObject(0, 0x10000000, 0x10000018)
    return scene


START, SHORT, LAST, PAGES, LEFT, RIGHT = range(6)
FIRST_OF_BLOCK, SECOND_OF_BLOCK, DEAD_OF_BLOCK, HEAP, DEAD_HEAP, AGAIN, EMPTY = range(6, 13)


def filled(**budgets):
    """The same with a block of the object stack, a dead one, blocks of the heap, a dead one whose place is used again,
    bytes in all of them and pointers in some."""
    scene = begun(**budgets)
    enter(scene, [40, 33], is_kept=True)
    top = scene.state.stacked
    enter(scene, [24], is_kept=True)
    scene.set_bytes(DEAD_OF_BLOCK, 0, pattern(3, 24))
    leave(scene, [DEAD_OF_BLOCK], top, is_kept=True)
    malloc(scene, 100, is_kept=True)
    malloc(scene, 24, is_kept=True)
    scene.set_bytes(DEAD_HEAP, 0, pattern(4, 24))
    free(scene, scene.to(DEAD_HEAP), is_kept=True)
    malloc(scene, 17, is_kept=True)
    malloc(scene, 0, is_kept=True)
    for n in (START, SHORT, LAST, PAGES, LEFT, RIGHT, FIRST_OF_BLOCK, SECOND_OF_BLOCK, HEAP, AGAIN):
        scene.set_bytes(n, 0, pattern(n, scene.state.objects[n].size))
    tags = [scene.to(FIRST_OF_BLOCK, 8), scene.to(HEAP, 3, 2, 50), dead_block(scene), dead_heap(scene),
            Value(FUNCTION.address, FUNCTION), scene.to(START), scene.to(AGAIN, 17), Value(0x1234), scene.to(EMPTY)]
    for n in (PAGES, LEFT, HEAP, FIRST_OF_BLOCK):
        words = scene.state.objects[n].size // 8
        for index in range(words):
            store(scene, POINTER, scene.to(n, 8 * index), tags[(index + n) % len(tags)], False, is_kept=True)
    store(scene, POINTER, scene.to(RIGHT, 16), scene.to(LEFT), False, is_kept=True)
    return scene


def dead_block(scene, offset=0):
    return scene.to(DEAD_OF_BLOCK, offset)


def dead_heap(scene, offset=0):
    return scene.to(DEAD_HEAP, offset)


def refused(scene):
    """Pointers through which no byte may be accessed: none, an integer, a function, null with bounds, dead objects, one
    without bytes, and places far from their object."""
    return [Value(0), Value(scene.state.objects[LEFT].address), Value(FUNCTION.address, FUNCTION), scene.to(EMPTY),
            dead_block(scene), dead_heap(scene), scene.to(LEFT, -scene.state.objects[LEFT].address), scene.to(LEFT, -1),
            scene.to(LEFT, 88), scene.to(LEFT, 1 << 63), scene.to(LEFT, 40, 8, 40), scene.to(LEFT, 7, 8, 40),
            Value(model.WORD - 1, scene.to(LEFT).tag), Value(model.WORD - 8, scene.to(HEAP).tag)]


# ---- scenes

def moving(scene):
    """Between two objects, with each offset from 0 to 9 on both sides."""
    for size in range(1, 41):
        for k in range(size % 2, 10, 2):
            memmove(scene, scene.to(RIGHT, 10 + k), scene.to(LEFT, (k + 3 * size) % 10), size, LINE + size)
        memmove(scene, scene.to(RIGHT, size % 10 + 8), scene.to(LEFT, size % 10), size)
        memmove(scene, scene.to(PAGES, size % 8), scene.to(HEAP, size % 8 + 8), size)


def overlapping(scene):
    for size in range(1, 41):
        at = size % 10
        for n, k in ((LEFT, 8), (PAGES, 16) if size % 2 else (HEAP, size % 7 + 1)):
            memmove(scene, scene.to(n, at + k), scene.to(n, at), size)
            memmove(scene, scene.to(n, at), scene.to(n, at + k), size)
        memmove(scene, scene.to(LEFT, size), scene.to(LEFT, size), size)


def refused_moves(scene):
    good, other = scene.to(LEFT), scene.to(RIGHT)
    for bad in refused(scene):
        for size in (0, 9):
            memmove(scene, bad, good, size)
            memmove(scene, good, bad, size)
            memset(scene, bad, 0x141, size)
            memcmp(scene, bad, good, size)
            memcmp(scene, good, bad, size)
        memmove(scene, bad, bad, 4)
    for size in (1, 13):
        for n in (LEFT, HEAP, SECOND_OF_BLOCK):
            last = scene.state.objects[n].size - size
            # inside and one byte outside on either side
            for offset in (-1, 0, last, last + 1):
                memmove(scene, scene.to(n, offset), other, size)
                memmove(scene, other, scene.to(n, offset), size)
                memset(scene, scene.to(n, offset), size, size)
                memcmp(scene, scene.to(n, offset), other, size)
                memcmp(scene, other, scene.to(n, offset), size)
    for size in (89, 1 << 32, 1 << 63, model.WORD - 1):
        memmove(scene, good, other, size)
        memset(scene, good, 0, size)
        memcmp(scene, good, other, size)


def filling(scene):
    for size in range(41):
        memset(scene, scene.to(LEFT, size % 10), 0xff00 + size, size)
        memset(scene, scene.to(PAGES, 40 - size), model.WORD - size, size)
        fill(scene, (RIGHT, size % 10 + 1), 0x100 + size, size)


def moving_ranges(scene):
    for size in range(41):
        at = size % 10
        copy_structure(scene, scene.to(RIGHT, 8 * (size % 3)), scene.to(LEFT, 8 * (size % 2)), size)
        if size % 2:
            move_bytes(scene, (RIGHT, 12), (LEFT, at), size)
            move_tagged(scene, (RIGHT, at + 8), (LEFT, at), size)
            move_tagged(scene, (HEAP, at), (HEAP, 16 + at), size)
        else:
            move_bytes(scene, (LEFT, at + 5), (LEFT, at), size)
            move_bytes(scene, (LEFT, at), (LEFT, at + 5), size)
            move_tagged(scene, (PAGES, 8 + at), (PAGES, at), size)
            copy_structure(scene, scene.to(HEAP, 8 + at), scene.to(LEFT, at), size)


def ranges():
    scene = filled()
    for part in (moving, overlapping, refused_moves, filling, moving_ranges):
        part(scene)
    return scene


def lengths(scene):
    """Strings at the end of what a pointer may access, and elsewhere."""
    for length in range(41):
        at = length % 10
        scene.set_bytes(LEFT, at, string(length, length) + b"\0")
        anywhere, fitting = scene.to(LEFT, at), scene.to(LEFT, at, at, at + length + 1)
        unended = scene.to(LEFT, at, at, at + length)
        for p in (anywhere, fitting, unended):
            strlen(scene, p)
        puts(scene, fitting if length % 2 else anywhere)
        puts(scene, unended)
        scan(scene, anywhere if length % 2 else fitting)
        scan(scene, unended)
        scan_at_most(scene, fitting, max(length, 1) if length % 2 else length + 1)
        scan_at_most(scene, unended, max(length, 1))
        scan_at_most(scene, unended, length + 1)
    for bad in refused(scene):
        strlen(scene, bad)
        puts(scene, bad)
        scan(scene, bad)
        scan_at_most(scene, bad, 3)
    for size in range(0, 41, 2):
        put_bytes(scene, (PAGES, 3 + size), size)


def copies(scene):
    scene.set_bytes(RIGHT, 0, bytes(88))
    for length in range(41):
        at = length % 10
        scene.set_bytes(LEFT, at, string(length, length) + b"\0")
        source = scene.to(LEFT, at)
        to = (3 * length) % 10 + 8
        strcpy(scene, scene.to(RIGHT, to), source)
        # as many bytes as the string has with its 0 byte, and one less
        strcpy(scene, scene.to(RIGHT, to, to, to + length + 1), source)
        strcpy(scene, scene.to(RIGHT, to, to, to + length), source)
        for size in sorted({(0, 1, length + 5)[length % 3], length + length % 2}):
            strncpy(scene, scene.to(RIGHT, to), source, size)
        strncpy(scene, scene.to(RIGHT, to, to, to + 4), source, 4 + length % 2)
        if at + length + 7 <= 88:
            strcpy(scene, scene.to(LEFT, at + 3), source)
            if at >= 3:
                strcpy(scene, scene.to(LEFT, at - 3), source)


def appended(scene):
    for length in range(0, 41, 2):
        scene.set_bytes(LEFT, length % 10, string(length, length) + b"\0")
        scene.set_bytes(RIGHT, 5, string(length + 1, 40 - length) + b"\0")
        source, to = scene.to(LEFT, length % 10), scene.to(RIGHT, 5)
        strcat(scene, to, source)
        strcat(scene, scene.to(RIGHT, 5, 5, 5 + 41), source)
        strcat(scene, scene.to(RIGHT, 5, 5, 5 + 40), source)
        strcat(scene, scene.to(RIGHT, 5, 5, 5 + 40 - length), source)
        strcat(scene, to, scene.to(LEFT, length % 10, 0, length % 10 + length))
    for bad in refused(scene):
        for routine in (strcpy, strcat, strcmp):
            routine(scene, bad, scene.to(LEFT))
            routine(scene, scene.to(LEFT), bad)
        strncpy(scene, bad, scene.to(LEFT), 3)
        strncpy(scene, scene.to(LEFT), bad, 3)
        strncpy(scene, bad, bad, 0)
        strchr(scene, bad, 97)


def compared(scene):
    scene.set_bytes(RIGHT, 0, bytes(88))
    for length in range(41):
        at, to = length % 10, (3 * length) % 10
        text = string(length, length)
        scene.set_bytes(LEFT, at, text + b"\0")
        scene.set_bytes(RIGHT, to, text + b"\0")
        a, b = scene.to(LEFT, at), scene.to(RIGHT, to)
        strcmp(scene, a, b)
        memcmp(scene, a, b, length + length % 2)
        # a bound where the strings end, and one before
        strcmp(scene, scene.to(LEFT, at, at, at + length + 1), b)
        strcmp(scene, *((scene.to(LEFT, at, at, at + length), b) if length % 2 else
                        (a, scene.to(RIGHT, to, to, to + length))))
        for byte in ((0x6100 + text[length // 2], 0) if length % 2 else (0x7e, 256)):
            strchr(scene, a, byte)
        strchr(scene, scene.to(LEFT, at, at, at + length), 0x7e if length % 2 else 0)
        if length:
            other = (0xff, text[-1] - 1, 0)[length % 3]
            scene.set_bytes(RIGHT, to + length - 1, bytes([other]))
            strcmp(scene, a, b)
            strcmp(scene, b, a)
            memcmp(scene, *((a, b) if length % 2 else (b, a)), length)


EDGES = [0, 1, 9, 10, 11, 15, 16, 99, 100, 101, 255, 256, 4095, 65535, 999999999, 1000000000, 2 ** 31 - 1, 2 ** 31,
         2 ** 32 - 1, 2 ** 32, 2 ** 32 + 10, 10 ** 18, 10 ** 19 - 1, 10 ** 19, 2 ** 63 - 1, 2 ** 63, 2 ** 63 + 1,
         2 ** 64 - 10, 2 ** 64 - 1, 2 ** 64 - 2 ** 31, 2 ** 64 - 2 ** 31 - 1, 0xdeadbeefcafe]


def formats(scene):
    scene.set_bytes(LEFT, 4, b"some text\0")
    scene.set_bytes(RIGHT, 0, b"\0")
    text, empty, unended = scene.to(LEFT, 4), scene.to(RIGHT), scene.to(LEFT, 4, 4, 13)
    for index, value in enumerate(EDGES):
        for directive in ("d", "u", "x", "c", "ld", "lu"):
            printf(scene, [(directive, Value(value))])
        for directive in ("d", "x", "ld") if index % 2 else ("u", "c", "lu"):
            number(scene, directive, value)
        digits(scene, value, 16 if index % 2 else 10)
    printf(scene, [])
    printf(scene, [0x41])
    printf(scene, [("s", text)])
    printf(scene, [("s", empty)])
    printf(scene, [0x3c, ("s", text), 0x3e])
    printf(scene, [("s", text), ("s", text), ("s", empty), ("d", Value(-5)), ("s", text), 10])
    printf(scene, [("d", Value(-1)), 0x20, ("u", Value(-1)), 0x25, ("x", Value(-1)), 10])
    printf(scene, [("ld", Value(-1)), 0x20, ("lu", Value(-1)), ("c", Value(0x100)), ("c", Value(-1)), 0xff])
    for bad in refused(scene) + [unended]:
        # nothing is put before all strings are scanned
        printf(scene, [0x41, ("s", text), ("s", bad)])
        printf(scene, [("s", bad)])


def strings():
    scene = filled()
    for part in (lengths, copies, appended, compared, formats):
        part(scene)
    return scene


def accesses():
    scene = filled()
    for scalar in list(model.INTEGERS) + [POINTER]:
        size = model.scalar_size(scalar)
        stored = Value(0xfedcba9876543210, scene.to(HEAP).tag)
        for offset in range(10):
            if scalar == POINTER or offset % 2 == 0:
                load(scene, scalar, scene.to(LEFT, offset + 16), False)
            if scalar == POINTER or offset % 2:
                store(scene, scalar, scene.to(LEFT, offset + 16), stored, False)
        for n in (PAGES, SECOND_OF_BLOCK):
            last = scene.state.objects[n].size - size
            for offset in (-1, 0, last, last + 1):
                load(scene, scalar, scene.to(n, offset), True)
                store(scene, scalar, scene.to(n, offset), Value(0x8182838485868788, scene.to(RIGHT).tag), True)
        for index, bad in enumerate(refused(scene)):
            if scalar == POINTER or index % 2 == size % 2:
                load(scene, scalar, bad, True)
            else:
                store(scene, scalar, bad, Value(5), True)
    for offset in range(0, 88 - 8, 3):
        load(scene, POINTER, scene.to(PAGES, offset), True)
        load(scene, POINTER, scene.to(PAGES, offset // 3 * 8 % 88), True)
    for p in refused(scene) + [scene.to(LEFT), scene.to(HEAP, 99), scene.to(AGAIN, 16)]:
        for size in (1, 40, model.WORD - 1):
            spatial_check(scene, p, size)
    spatial_check(scene, scene.to(LEFT), 88)
    spatial_check(scene, scene.to(LEFT), 89)
    for n in range(12):
        temporal_check(scene, scene.to(n))
    return scene


def blocks():
    """Blocks of the object stack with one object and several, on clean bytes and on those of dead objects."""
    scene = filled()
    top = scene.state.stacked
    for sizes in ([1], [7], [8], [16], [40], [16, 16], [32, 1], [48, 24, 17]):
        enter(scene, sizes)
    room = scene.state.sizes.stack_end - model.rounded_up(16, top)
    for size in (room - 1, room, room + 1):
        enter(scene, [size])
    enter(scene, [16, room])
    # one block is left with its bytes and pointers, and another is entered there
    enter(scene, [64, 32], is_kept=True)
    first = len(scene.state.objects) - 2
    for n in (first, first + 1):
        scene.set_bytes(n, 0, pattern(n, scene.state.objects[n].size))
    for offset in range(0, 64, 8):
        store(scene, POINTER, scene.to(first, offset), scene.to(first + 1, offset), False, is_kept=True)
    leave(scene, [first, first + 1], top)
    leave(scene, [first, first + 1], top, is_kept=True)
    for sizes in ([1], [8], [13], [64], [64, 32], [96], [32, 64]):
        enter(scene, sizes)
    enter(scene, [96], is_kept=True)
    temporal_check(scene, scene.to(first))
    temporal_check(scene, scene.to(first + 1))
    temporal_check(scene, scene.to(first + 2))
    leave(scene, [FIRST_OF_BLOCK, SECOND_OF_BLOCK], scene.state.sizes.stack_first)
    for n in (START, LAST, PAGES, LEFT, FIRST_OF_BLOCK, SECOND_OF_BLOCK, HEAP, AGAIN, EMPTY, first + 2):
        zero(scene, n)
    return scene


def heap():
    """Blocks at the least place, also where others ended, with the bytes and pointers of dead ones below them."""
    scene = filled()
    sizes = (0, 1, 15, 16, 17, 40, 100, 0x1000, 0x2000 - 160, 0x2000, 0x2001, 1 << 32, 1 << 63, model.WORD - 1)
    for size in sizes:
        malloc(scene, size)
        realloc(scene, Value(0), size)
        calloc(scene, 1, size)
        calloc(scene, size, 1)
        realloc(scene, scene.to(HEAP), size)
        realloc(scene, scene.to(AGAIN), size)
    for count, size in ((0, 5), (5, 0), (3, 7), (1 << 32, 1 << 32), (1 << 33, 1 << 31), (model.WORD - 1, 2),
                        (1 << 63, 2), ((1 << 32) - 1, (1 << 32) + 1), (6700417, 2753074036095),
                        (model.WORD - 1, model.WORD - 1)):
        calloc(scene, count, size)
    for size in range(41):
        realloc(scene, scene.to(HEAP), size)
    for p in refused(scene) + [scene.to(HEAP, 1), scene.to(HEAP, 16), scene.to(HEAP, 0, 4, 8), scene.to(FIRST_OF_BLOCK),
                               scene.to(LEFT), scene.to(HEAP), scene.to(AGAIN), scene.to(EMPTY),
                               scene.to(HEAP, scene.state.objects[AGAIN].address - scene.state.objects[HEAP].address)]:
        free(scene, p)
        realloc(scene, p, 20)
    free(scene, scene.to(HEAP), is_kept=True)
    for size in (1, 64, 100, 112, 113, 0x1000):
        malloc(scene, size)
        calloc(scene, size, 1)
    malloc(scene, 48, is_kept=True)
    malloc(scene, 64, is_kept=True)
    malloc(scene, 16, is_kept=True)
    free(scene, scene.to(HEAP))
    last = len(scene.state.objects) - 1
    for n in (last - 1, AGAIN, last, last - 2):
        free(scene, scene.to(n), is_kept=True)
        malloc(scene, 33)
        realloc(scene, scene.to(EMPTY), 70)
    realloc(scene, scene.to(EMPTY), 70, is_kept=True)
    free(scene, scene.to(EMPTY))
    free(scene, scene.to(last + 1))
    return scene


def few_blocks():
    """As many live blocks as the budget allows, the heap full, and no key left."""
    scene = begun(heap=0x1000, blocks=4, keys=6)
    for size in (16, 4096 - 64, 32):
        malloc(scene, size, is_kept=True)
    blocks_of = range(len(scene.state.objects) - 3, len(scene.state.objects))
    for size in (0, 16, 17):
        malloc(scene, size)
        calloc(scene, size, 1)
        realloc(scene, scene.to(blocks_of[2]), size)
    malloc(scene, 1, is_kept=True)
    for size in (0, 1, 16):
        malloc(scene, size)
        realloc(scene, scene.to(blocks_of[0]), size)
    free(scene, scene.to(blocks_of[1]), is_kept=True)
    realloc(scene, scene.to(blocks_of[0]), 40, is_kept=True)
    enter(scene, [8], is_kept=True)
    # six keys were made
    enter(scene, [8])
    enter(scene, [0x1000])
    malloc(scene, 8)
    malloc(scene, 0x1000)
    calloc(scene, 2, 4)
    calloc(scene, 1 << 63, 4)
    realloc(scene, Value(0), 8)
    realloc(scene, scene.to(blocks_of[2]), 8)
    realloc(scene, scene.to(blocks_of[2]), 0x1000)
    free(scene, scene.to(blocks_of[2]))
    return scene


def all_pages():
    """Pointers on each page of object space, so that each has a table in two levels."""
    scene = begun(heap=0x2000, stack=0x1000)
    for sizes in ([1, 1, 1], [17, 33, 1, 8]):
        enter(scene, sizes)
    enter(scene, [0x1000], is_kept=True)
    malloc(scene, 0x1ff0, is_kept=True)
    stack, block = len(scene.state.objects) - 2, len(scene.state.objects) - 1
    places = [(START, 0), (PAGES, 24), (PAGES, 48), (LAST, 24), (stack, 0), (stack, 0xff8), (block, 0), (block, 0xff8),
              (block, 0x1000), (block, 0x1fe8)]
    for index, (n, offset) in enumerate(places):
        store(scene, POINTER, scene.to(n, offset), scene.to(places[index - 1][0], index), False, is_kept=True)
    for n, offset in places:
        load(scene, POINTER, scene.to(n, offset), True)
        if offset >= 8:
            load(scene, POINTER, scene.to(n, offset - 8), True)
    for size in (8, 16, 24, 40):
        memmove(scene, scene.to(block, 0xff8 - size // 2 // 8 * 8), scene.to(PAGES, 24), size)
        memmove(scene, scene.to(block, 0xff0), scene.to(block, 0xff8), size)
        memmove(scene, scene.to(block, 0x1000), scene.to(block, 0xff8), size)
        memmove(scene, scene.to(stack, 0xff8 - size), scene.to(stack, 0x1000 - size), size)
    return scene


def pointers():
    """Pointers to members, moved by elements, and their differences, also over the ends of the addresses."""
    scene = filled()
    of_left = scene.to(LEFT, 16)
    for offset, size in ((0, 88), (0, 8), (16, 8), (72, 16), (80, 0), (88, 8), (model.WORD - 16, 8)):
        narrow(scene, of_left, offset, size)
    # the end of a member behind the last address, and sizes of 2^31 and more
    for size in (1 << 31, (1 << 32) - 1, 1 << 32, model.WORD - 1):
        narrow(scene, of_left, 8, size)
        narrow(scene, of_left, model.WORD - of_left.word - 8, size)
    narrow(scene, scene.to(LEFT, 16, 8, 40), 0, 88)
    narrow(scene, scene.to(LEFT, 0, 8, 40), 4, 8)
    for p in refused(scene):
        narrow(scene, p, 8, 16)
    first = scene.state.objects[LEFT].address
    for size in (1, 2, 4, 8, 3, 24, (1 << 32) - 1, 1 << 32):
        for index in (0, 1, 5, model.WORD - 3):
            offsets(scene, first, index, size)
    offsets(scene, model.WORD - 8, 2, 8)
    for size in (1, 2, 4, 8, 3, 24, (1 << 32) - 1, 1 << 32):
        for left, right in ((first, first), (first + 72, first), (first, first + 72), (first + 7, first + 1),
                            (0, model.WORD - 48)):
            difference(scene, left, right, size)
    return scene


FIRST_AREA, SECOND_AREA, LAST_AREA = Area(0), Area(0x400), Area(4096 - 88 - 32 * 11)


def taken_contents(scene):
    """Structures of all sizes at words and elsewhere, over ends of pages, with pointers to live and dead objects."""
    for size in range(1, 42):
        take_structure(scene, FIRST_AREA, scene.to(LEFT, 8 * (size % 3)), size)
        take_structure(scene, SECOND_AREA, scene.to(HEAP, size % 11), size)
    for n in (START, SHORT, LAST, PAGES, LEFT, RIGHT, FIRST_OF_BLOCK, SECOND_OF_BLOCK, HEAP, AGAIN):
        take_structure(scene, LAST_AREA, scene.to(n), min(88, scene.state.objects[n].size))
    take_structure(scene, FIRST_AREA, scene.to(LEFT, 40), 0)
    for size in (0, 1, 7, 8, 9, 15, 16, 40, 88):
        make_zero(scene, FIRST_AREA, size)


def put_parts(scene, area, whole):
    """Parts put to words and elsewhere, where both places are equal modulo 8 and where they are not."""
    for size in range(1, 42):
        k = size % 8
        put_structure(scene, scene.to(RIGHT, 8 + k), area, whole, k, size)
        put_structure(scene, scene.to(PAGES, 8 * (size % 5)), area, whole, 8 * (size % 6), size)
        put_structure(scene, scene.to(RIGHT, size), area, whole, (3 * size) % 40, size)
    put_structure(scene, scene.to(RIGHT), area, whole, 0, whole.size)
    put_structure(scene, scene.to(HEAP, 12), area, whole, 4, whole.size - 4)
    put_structure(scene, scene.to(RIGHT, 8), area, whole, 16, 0)


def take_parts(scene, area, whole):
    """Parts taken to another area and to the beginning of their own."""
    for size in range(1, 42):
        take_part(scene, SECOND_AREA, area, whole, 8 * (size % 6), size)
        take_part(scene, area, area, whole, (5 * size) % 40, size)
    for offset in (0, 8, 1, 87, 88):
        take_part(scene, area, area, whole, offset, whole.size - offset)
        take_part(scene, LAST_AREA, area, whole, offset, whole.size - offset)


def read_parts(scene, area, whole):
    for scalar in list(model.INTEGERS) + [POINTER]:
        last = whole.size - model.scalar_size(scalar)
        for offset in sorted({0, 1, 7, 8, 16, 20, 33, 64, last - 1, last}):
            read_part(scene, scalar, area, whole, offset)
    for offset in range(0, whole.size - 8, 8):
        read_part(scene, POINTER, area, whole, offset)
    for offset, member, size in ((0, 0, 88), (0, 8, 16), (8, 72, 8), (3, 5, 1), (16, 72, 0), (0, 88, 0)):
        narrow_part(scene, area, whole, offset, member, size)


def structures():
    """Contents of structures in areas, those of each kind beside others that stay."""
    scene = filled()
    taken_contents(scene)
    for n, area in ((LEFT, FIRST_AREA), (PAGES, LAST_AREA)):
        whole = take_structure(scene, area, scene.to(n), 88, is_kept=True)
        put_parts(scene, area, whole)
        take_parts(scene, area, whole)
        read_parts(scene, area, whole)
        make_zero(scene, area, 88)
    # a part stays at the beginning of its own area, with no entries and with those of whole words
    for offset in (3, 8):
        whole = take_structure(scene, SECOND_AREA, scene.to(HEAP), 88, is_kept=True)
        part = take_part(scene, SECOND_AREA, SECOND_AREA, whole, offset, 50, is_kept=True)
        put_structure(scene, scene.to(RIGHT, 16), SECOND_AREA, part, 0, 50)
        take_part(scene, SECOND_AREA, SECOND_AREA, part, 8, 42)
        for at in range(0, 43, 6):
            read_part(scene, POINTER, SECOND_AREA, part, at)
    return scene


def copied_ranges():
    scene = filled()
    for size in range(41):
        memcpy(scene, scene.to(RIGHT, size % 10 + 8), scene.to(LEFT, (3 * size) % 10), size, LINE + size)
    memcpy(scene, scene.to(LEFT, 8), scene.to(LEFT), 40)
    memcpy(scene, scene.to(LEFT), scene.to(LEFT, 8), 40)
    for index, bad in enumerate(refused(scene)):
        memcpy(scene, bad, scene.to(LEFT), 9 - index % 2 * 9)
        memcpy(scene, scene.to(LEFT), bad, 9)
    return scene


SCENES = [ranges, strings, accesses, blocks, heap, few_blocks, all_pages, pointers, structures, copied_ranges]


def make():
    here = os.path.dirname(os.path.abspath(__file__))
    scenes = [build() for build in SCENES]
    with open(f"{here}/stdin", "w") as f:
        f.write("%%\n".join("".join(f"{line}\n" for line in scene.input) for scene in scenes))
    with open(f"{here}/stdout", "w") as f:
        f.write("".join("".join(f"{line}\n" for line in scene.output) for scene in scenes))
    for build, scene in zip(SCENES, scenes):
        print(f"{build.__name__}: {scene.rows} rows", file=sys.stderr)
    print(f"{sum(scene.rows for scene in scenes)} rows", file=sys.stderr)


if __name__ == "__main__":
    if sys.argv[1:] != ["make"]:
        sys.exit("usage: vectors.py make")
    make()
