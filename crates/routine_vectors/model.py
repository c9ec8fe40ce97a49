"""The source's memory and what its actions do, after the definitions of `obj_memory/specs` and `source_meaning/specs`:
objects with ranges and lives, bytes with tags, and the work of a run. There is no shadow space, no lock word and no
flat code here. Functions have the names of the definitions."""

import copy

WORD = 1 << 64
INTEGERS = {  # size, signed (LP64; plain char is unsigned)
    "char": (1, False), "signed_char": (1, True), "unsigned_char": (1, False), "short": (2, True),
    "unsigned_short": (2, False), "int": (4, True), "unsigned_int": (4, False), "long": (8, True),
    "unsigned_long": (8, False), "long_long": (8, True), "unsigned_long_long": (8, False)}
POINTER = "pointer"


class Ended(Exception):
    """The run ended, with a kind and a line."""

    def __init__(self, kind, line):
        super().__init__(kind, line)
        self.kind, self.line = kind, line


class Function:
    """The tag of a function: its address and the number of its type."""

    def __init__(self, address, type_number):
        self.address, self.type_number = address, type_number


class OfObject:
    """The tag of an object: its number and the bounds."""

    def __init__(self, number, base, bound):
        self.number, self.base, self.bound = number, base, bound


class Value:
    def __init__(self, word, tag=None):
        self.word, self.tag = word % WORD, tag


class Object:
    """`key` tells after how many keys its own was made, None for static objects. Those of an entered block share it."""

    def __init__(self, storage, address, size, key):
        self.storage, self.address, self.size, self.key = storage, address, size, key
        self.is_live = True
        self.bytes = bytearray(size)
        self.tags = [None] * (size // 8)

    def __deepcopy__(self, memo):
        other = Object(self.storage, self.address, 0, self.key)
        other.size, other.is_live = self.size, self.is_live
        other.bytes, other.tags = bytearray(self.bytes), list(self.tags)
        return other


class Sizes:
    """The places of objects, as `addr_map/specs/Places.antt` has them, with two pages of static objects."""

    def __init__(self, heap, stack, blocks, keys):
        self.heap, self.stack, self.blocks, self.keys = heap, stack, blocks, keys
        self.stack_first = 0x10000000 + 0x2000
        self.stack_end = self.heap_first = self.stack_first + stack
        self.heap_last = self.heap_first + heap - 1


class State:
    def __init__(self, sizes):
        self.sizes = sizes
        self.objects = []
        self.output = bytearray()
        self.accesses = []
        self.work = 0
        self.keys = 0
        self.stacked = sizes.stack_first

    def copy(self):
        other = copy.copy(self)
        other.objects = copy.deepcopy(self.objects)
        other.output, other.accesses, other.work = bytearray(), [], 0
        return other

    def tally(self, count):
        self.work += count


def fit(of, word):
    """A word converted to an integer type."""
    size, signed = INTEGERS[of]
    low = word % (1 << 8 * size)
    return (low - (1 << 8 * size)) % WORD if signed and low >> (8 * size - 1) else low


def scalar_size(scalar):
    return 8 if scalar == POINTER else INTEGERS[scalar][0]


def int_of(word):
    low = word % (1 << 32)
    return low - (1 << 32) if low >> 31 else low


def rounded_up(unit, n):
    return (n + unit - 1) // unit * unit


# ---- judgement

def located(s, is_judged, size, v, line):
    """The place of an access: the number of the object and the offset."""
    if not isinstance(v.tag, OfObject):
        raise Ended("spatial", line)
    o = s.objects[v.tag.number]
    if is_judged:
        if not (v.tag.base <= v.word and v.word + size <= v.tag.bound):
            raise Ended("spatial", line)
        if not o.is_live:
            raise Ended("temporal", line)
    return v.tag.number, v.word - o.address


def moved(offset, v):
    return Value(v.word + offset, v.tag)


def narrowed(offset, size, v):
    """To a member: the bounds are where the old ones meet its bytes. Its end does not wrap."""
    address = (v.word + offset) % WORD
    if not isinstance(v.tag, OfObject):
        return Value(address, v.tag)
    return Value(address, OfObject(v.tag.number, max(v.tag.base, address), min(v.tag.bound, address + size)))


def signed(word):
    return word - WORD if word >= WORD // 2 else word


def difference(size, left, right):
    """In elements, without a fraction."""
    between = signed((left - right) % WORD)
    return (abs(between) // size * (-1 if between < 0 else 1)) % WORD


def pointer_to(s, n):
    o = s.objects[n]
    return Value(o.address, OfObject(n, o.address, o.address + o.size))


def test_bounds(s, size, v, line):
    if not (isinstance(v.tag, OfObject) and v.tag.base <= v.word and v.word + size <= v.tag.bound):
        raise Ended("spatial", line)


def test_life(s, v, line):
    if not (isinstance(v.tag, OfObject) and s.objects[v.tag.number].is_live):
        raise Ended("temporal", line)


# ---- bytes and tags

def bytes_at(s, size, place):
    n, offset = place
    return bytes(s.objects[n].bytes[offset:offset + size])


def write_bytes(s, new, place):
    n, offset = place
    s.objects[n].bytes[offset:offset + len(new)] = new


def scalar_in(o, scalar, offset):
    """Of an object, or of contents."""
    number = int.from_bytes(o.bytes[offset:offset + scalar_size(scalar)], "little")
    if scalar != POINTER:
        return Value(fit(scalar, number))
    return Value(number, o.tags[offset // 8] if offset % 8 == 0 and offset // 8 < len(o.tags) else None)


def read_value(s, scalar, place):
    n, offset = place
    return scalar_in(s.objects[n], scalar, offset)


def write_value(s, scalar, v, place):
    write_bytes(s, (v.word % (1 << 8 * scalar_size(scalar))).to_bytes(scalar_size(scalar), "little"), place)
    n, offset = place
    if scalar == POINTER and offset % 8 == 0:
        s.objects[n].tags[offset // 8] = v.tag


def moved_into(size, to, at, source, o):
    """Bytes of an object or of contents into another, with the tags of whole words where both are equal modulo 8."""
    new, tags = bytes(source.bytes[at:at + size]), list(source.tags)
    if to % 8 == at % 8:
        for word in range(len(o.tags)):
            if to <= 8 * word and 8 * word + 8 <= to + size:
                from_word = (8 * word - to + at) // 8
                o.tags[word] = tags[from_word] if from_word < len(tags) else None
    o.bytes[to:to + size] = new


def move_range(s, size, destination, source):
    (d, to), (n, at) = destination, source
    moved_into(size, to, at, s.objects[n], s.objects[d])


def move_bytes(s, size, destination, source):
    s.tally(size)
    move_range(s, size, destination, source)


def set_bytes(s, new, place):
    s.tally(len(new))
    write_bytes(s, new, place)


def look(s, p, line):
    place = located(s, True, 1, p, line)
    s.tally(1)
    return read_value(s, "unsigned_char", place).word


# ---- scalars and structures

def load(s, scalar, is_judged, p, line):
    place = located(s, is_judged, scalar_size(scalar), p, line)
    s.accesses.append(("reads", p.word, scalar_size(scalar)))
    return read_value(s, scalar, place)


def store(s, scalar, is_judged, p, line, v):
    place = located(s, is_judged, scalar_size(scalar), p, line)
    s.accesses.append(("writes", p.word, scalar_size(scalar)))
    write_value(s, scalar, v, place)


def copy_structure(s, size, is_judged, p, line, v):
    destination = located(s, is_judged, size, p, line)
    source = located(s, False, size, v, line)
    move_bytes(s, size, destination, source)


# ---- structures by value: contents are like an object that has no place

def zero_contents(size):
    return Object("automatic", 0, size, None)


def contents_of(size, at, source):
    contents = zero_contents(size)
    moved_into(size, 0, at, source, contents)
    return contents


def make_zero(s, size):
    s.tally(size)
    return zero_contents(size)


def taken(s, size, v, line):
    n, offset = located(s, False, size, v, line)
    s.tally(size)
    return contents_of(size, offset, s.objects[n])


def taken_part(s, contents, size, offset):
    s.tally(size)
    return contents_of(size, offset, contents)


def put_contents(s, contents, size, p, line, offset):
    n, at = located(s, False, size, p, line)
    s.tally(size)
    moved_into(size, at, offset, contents, s.objects[n])


# ---- memory

def memmove(s, d, source, size, line):
    if size == 0:
        return d
    to = located(s, True, size, d, line)
    at = located(s, True, size, source, line)
    move_bytes(s, size, to, at)
    return d


def memset(s, d, byte, size, line):
    if size == 0:
        return d
    place = located(s, True, size, d, line)
    set_bytes(s, bytes([byte % 256]) * size, place)
    return d


def order(x, y):
    return Value(-1 if x < y else 1 if y < x else 0)


def memcmp(s, a, b, size, line):
    if size == 0:
        return Value(0)
    xs = bytes_at(s, size, located(s, True, size, a, line))
    ys = bytes_at(s, size, located(s, True, size, b, line))
    for x, y in zip(xs, ys):
        s.tally(2)
        if x != y:
            return order(x, y)
    return Value(0)


# ---- strings

def reach(p):
    return max(0, p.tag.bound - p.word) if isinstance(p.tag, OfObject) else 0


def scan_within(s, count, behind, p, line):
    """The bytes before the first 0 byte; `behind` is done where so many have none."""
    found = bytearray()
    for index in range(count):
        byte = look(s, moved(index, p), line)
        if byte == 0:
            return bytes(found)
        found.append(byte)
    behind()
    return bytes(found)


def scan(s, p, line):
    def stop():
        raise Ended("spatial", line)

    return scan_within(s, reach(p), stop, p, line)


def strlen(s, p, line):
    return Value(len(scan(s, p, line)))


def strcmp(s, a, b, line):
    for index in range(reach(a)):
        x = look(s, moved(index, a), line)
        y = look(s, moved(index, b), line)
        if x != y or x == 0:
            return order(x, y)
    raise Ended("spatial", line)


def write_string(s, d, string, line):
    place = located(s, True, len(string) + 1, d, line)
    set_bytes(s, string + b"\0", place)


def strcpy(s, d, source, line):
    write_string(s, d, scan(s, source, line), line)
    return d


def strncpy(s, d, source, size, line):
    if size == 0:
        return d
    string = scan_within(s, size, lambda: None, source, line)
    place = located(s, True, size, d, line)
    set_bytes(s, string + bytes(size - len(string)), place)
    return d


def strcat(s, d, source, line):
    before = scan(s, d, line)
    string = scan(s, source, line)
    write_string(s, moved(len(before), d), string, line)
    return d


def strchr(s, p, byte, line):
    sought = fit("char", byte)
    for index in range(reach(p)):
        found = look(s, moved(index, p), line)
        if found == sought:
            return moved(index, p)
        if found == 0:
            return Value(0)
    raise Ended("spatial", line)


# ---- printing

def put_bytes(s, new):
    s.tally(len(new))
    s.output += new


def puts(s, p, line):
    put_bytes(s, scan(s, p, line) + b"\n")
    return Value(0)


def argument_bytes(s, directive, v, line):
    if directive == "s":
        return scan(s, v, line)
    if directive == "c":
        return bytes([v.word % 256])
    number = {
        "d": int_of(v.word), "u": v.word % (1 << 32), "x": v.word % (1 << 32),
        "ld": v.word - WORD if v.word >> 63 else v.word, "lu": v.word}[directive]
    return (f"{number:x}" if directive == "x" else str(number)).encode()


def print_formatted(s, pieces, line):
    """Pieces are bytes, or directives with their arguments."""
    new = b""
    for piece in pieces:
        new += bytes([piece]) if isinstance(piece, int) else argument_bytes(s, *piece, line)
    put_bytes(s, new)
    return Value(fit("int", len(new)))


# ---- the heap

def is_live_block(o):
    return o.storage == "allocated" and o.is_live


def block_count(s):
    return sum(is_live_block(o) for o in s.objects)


def block_room(size):
    return max(16, rounded_up(16, size))


def least_place(s, size):
    room, z = block_room(size), s.sizes
    for start in range(z.heap_first, z.heap_last + 1, 16):
        if start + room > z.heap_last + 1:
            return None
        if all(start + room <= o.address or o.address + block_room(o.size) <= start
               for o in s.objects if is_live_block(o)):
            return start
    return None


def tally_blocks(s):
    s.tally(1 + block_count(s))


def take_key(s, line):
    if s.keys >= s.sizes.keys:
        raise Ended("keys", line)
    s.keys += 1


def make_object(s, storage, address, size, key):
    s.tally(1 + size)
    s.objects.append(Object(storage, address, size, key))
    return len(s.objects) - 1


def allocate(s, size, line):
    tally_blocks(s)
    place = least_place(s, size) if block_count(s) < s.sizes.blocks else None
    if place is None:
        return Value(0)
    take_key(s, line)
    return pointer_to(s, make_object(s, "allocated", place, size, s.keys - 1))


def calloc(s, count, size, line):
    return allocate(s, count * size, line) if count * size < WORD else Value(0)


def freed(s, p, line):
    def bad_free():
        tally_blocks(s)
        raise Ended("bad free", line)

    if not isinstance(p.tag, OfObject):
        bad_free()
    o = s.objects[p.tag.number]
    if not o.is_live:
        raise Ended("temporal", line)
    if not (o.storage == "allocated" and p.word == o.address):
        bad_free()
    return p.tag.number


def release(s, n):
    tally_blocks(s)
    s.objects[n].is_live = False


def free(s, p, line):
    if p.word != 0:
        release(s, freed(s, p, line))


def realloc(s, old, size, line):
    if old.word == 0:
        return allocate(s, size, line)
    n = freed(s, old, line)
    new = allocate(s, size, line)
    if new.word == 0:
        return new
    place = located(s, False, size, new, line)
    move_bytes(s, min(size, s.objects[n].size), place, (n, 0))
    release(s, n)
    return new


# ---- blocks

def objects_end(sizes, top):
    for size in sizes:
        top = rounded_up(16, top) + size
    return top


def enter_block(s, sizes, line):
    if objects_end(sizes, s.stacked) > s.sizes.stack_end:
        raise Ended("stack", line)
    take_key(s, line)
    made = []
    for size in sizes:
        address = rounded_up(16, s.stacked)
        s.stacked = address + size
        made.append(make_object(s, "automatic", address, size, s.keys - 1))
    return made


def leave_block(s, numbers, top):
    for n in numbers:
        s.objects[n].is_live = False
    s.stacked = top


def with_zeroed(s, n):
    o = s.objects[n]
    o.bytes, o.tags = bytearray(o.size), [None] * (o.size // 8)
