"""Scenes and rows as text: what the program is given, and what it must tell, by the model of the source."""

import model
from model import Ended, Function, Object, OfObject, State, Value

STATUS = {"spatial": 120, "temporal": 121, "bad free": 123, "stack": 125, "keys": 126}
REPORT = {"spatial": "spatial violation", "temporal": "temporal violation", "bad free": "bad free",
          "stack": "stack exhausted", "keys": "keys exhausted"}
OBJECTS = 0x10000000


class Number:
    """An operand that is a number."""

    def __init__(self, value):
        self.value = value


class Area:
    """An operand that is where an area begins, behind the first address of the space of structure values."""

    def __init__(self, offset):
        self.offset = offset

    def text(self):
        return f"area{self.offset:x}"


class PartOfContents:
    """The registers of a part of contents in an area, from an offset on."""

    def __init__(self, area, offset, size):
        self.area, self.offset, self.size = area, offset, size

    def text(self):
        return f"part{self.offset:x}/{self.area.offset:x}/{self.size:x}"


class Part:
    """A word of a row that is a part of the code."""

    def __init__(self, text):
        self.text = text


class Given:
    """What a run gives: nothing, a word, a pointer, a block from an address to another, contents, or a part of some."""

    def __init__(self, kind, value=None, end=None):
        self.kind, self.value, self.end = kind, value, end


NOTHING = Given("nothing")


def word(value):
    return Given("word", value)


def pointer(value):
    return Given("pointer", value)


def contents(value):
    return Given("contents", value)


class Scene:
    """The input and the output of a scene, with the state of the source so far. `space` has all bytes of object
    space: those of no live object stay as they were."""

    def __init__(self, heap=0x2000, stack=0x1000, blocks=16, keys=100):
        self.state = State(model.Sizes(heap, stack, blocks, keys))
        first = f"{heap:x} {stack:x} {blocks:x} {keys:x}"
        self.input, self.output = [first], [first]
        self.space = bytearray(0x2000 + stack + heap)
        self.rows = 0

    # -- objects

    def static(self, address, size):
        self.state.objects.append(Object("static", address, size, None))
        self.input.append(f"object {address:x} {size:x}")
        return len(self.state.objects) - 1

    def set_bytes(self, number, offset, new):
        """Bytes of an object, whatever they were."""
        o = self.state.objects[number]
        assert offset + len(new) <= o.size and o.is_live
        o.bytes[offset:offset + len(new)] = new
        self.space[o.address + offset - OBJECTS:o.address + offset - OBJECTS + len(new)] = new
        self.input.append(f"bytes {o.address + offset:x} {bytes(new).hex()}")

    def to(self, number, offset=0, base=None, bound=None):
        """A pointer into an object; the bounds are offsets."""
        o = self.state.objects[number]
        first = o.address + (0 if base is None else base)
        end = o.address + (o.size if bound is None else bound)
        return Value(o.address + offset, OfObject(number, first, end))

    # -- texts

    def leader(self, number):
        """The first object with the same key: all static objects have one, and so have those of a block."""
        key = self.state.objects[number].key
        return next(n for n, o in enumerate(self.state.objects) if o.key == key)

    def key_of(self, o):
        return 1 if o.key is None else 2 + o.key

    def tag_text(self, state, tag):
        if tag is None:
            return "-"
        if isinstance(tag, Function):
            return f"fn/{tag.address:x}/{tag.type_number:x}"
        if tag.number < len(self.state.objects):
            return f"{self.leader(tag.number):x}/{tag.base:x}/{tag.bound:x}"
        return f"new{self.key_of(state.objects[tag.number]):x}/{tag.base:x}/{tag.bound:x}"

    def operand_text(self, operand):
        if isinstance(operand, Value):
            if isinstance(operand.tag, OfObject):
                tag = f"{operand.tag.number:x}/{operand.tag.base:x}/{operand.tag.bound:x}"
            else:
                tag = self.tag_text(self.state, operand.tag)
            return f"{operand.word:x}/{tag}"
        if isinstance(operand, Number):
            return f"{operand.value % model.WORD:x}"
        if isinstance(operand, (Area, PartOfContents)):
            return operand.text()
        return operand.text

    def given_text(self, state, given):
        if given.kind == "nothing":
            return ""
        if given.kind == "word":
            return f" {given.value % model.WORD:x}"
        if given.kind == "pointer":
            return f" {given.value.word:x}/{self.tag_text(state, given.value.tag)}"
        if given.kind == "contents":
            tags = "".join(f" {self.tag_text(state, tag)}" for tag in given.value.tags)
            return f" {bytes(given.value.bytes).hex()}{tags}"
        if given.kind == "part":
            # behind the offset and the area how far its entries are behind that, and no lock word
            part = given.value
            return f" part{part.offset:x}/{part.area.offset:x}/{model.rounded_up(8, part.size):x}/0"
        tag = self.tag_text(state, OfObject(len(self.state.objects), given.value, given.end))
        return f" {given.value:x}..{given.end:x}/{tag}"

    # -- what changes

    def space_after(self, state):
        space = bytearray(self.space)
        for o in state.objects:
            if o.is_live:
                space[o.address - OBJECTS:o.address - OBJECTS + o.size] = o.bytes
        return space

    def byte_changes(self, state):
        text, following = "", None
        after = self.space_after(state)
        if after == self.space:
            return ""
        for offset, (old, new) in enumerate(zip(self.space, after)):
            if old != new:
                text += f"{new:02x}" if offset == following else f" {OBJECTS + offset:x}:{new:02x}"
                following = offset + 1
        return text

    def tag_changes(self, state):
        text = ""
        for old, new in zip(self.state.objects, state.objects):
            for index in range(new.size // 8 if new.is_live else 0):
                was, now = self.tag_text(state, old.tags[index]), self.tag_text(state, new.tags[index])
                if was != now:
                    text += f" @{new.address + 8 * index:x}={now}"
        return text

    def born_tags(self, state):
        """Tags of objects that were not there before."""
        text = ""
        for o in state.objects[len(self.state.objects):]:
            for index, tag in enumerate(o.tags):
                if tag is not None:
                    text += f" @{o.address + 8 * index:x}={self.tag_text(state, tag)}"
        return text

    def rows_of(self, state):
        blocks = sorted((o.address, o.size, self.key_of(o)) for o in state.objects if model.is_live_block(o))
        return "".join(f",{address:x}+{size:x}#{key:x}" for address, size, key in blocks)

    def locks_of(self, state):
        """One lock word for each key of a live object, and the one of static objects."""
        return 1 + len({o.key for o in state.objects if o.is_live and o.key is not None})

    def space_changes(self, state):
        text = f" keys {state.keys:x}" if state.keys != self.state.keys else ""
        if self.rows_of(state) != self.rows_of(self.state):
            text += f" blocks{self.rows_of(state)}"
        if self.locks_of(state) != self.locks_of(self.state):
            text += f" locks {self.locks_of(state):x}"
        for number, (old, new) in enumerate(zip(self.state.objects, state.objects)):
            if old.is_live and not new.is_live:
                text += f" {number:x} dies"
        return text

    def shown(self, state, is_of_program):
        text = f" puts {state.output.hex()}" if state.output else ""
        if is_of_program:
            text += "".join(f" {kind} {address:x}+{size}" for kind, address, size in state.accesses)
        return text

    # -- rows

    def perform(self, name, line, promise, operands, run, is_kept=False, is_of_program=False):
        """A row: `run` is what the source does to a state, `promise` gives the steps that are allowed by its work."""
        state = self.state.copy()
        try:
            given, ended = run(state), None
        except Ended as e:
            given, ended = None, e
        limit = promise(state.work)
        words = ["keep" if is_kept else "row", name, f"{line:x}", f"{limit:x}"]
        self.input.append(" ".join(words + [self.operand_text(it) for it in operands]))
        if ended is None:
            text = "ok" + self.given_text(state, given) + self.shown(state, is_of_program) + " within"
            text += self.byte_changes(state) + self.tag_changes(state) + self.space_changes(state)
            text += self.born_tags(state)
        else:
            text = f"{STATUS[ended.kind]} sbcets: {REPORT[ended.kind]} at line {ended.line}"
            text += self.shown(state, is_of_program) + " within"
        self.output.append(text)
        self.rows += 1
        if is_kept:
            assert ended is None, "a run that is kept goes on"
            self.keep(state)
        return given

    def keep(self, state):
        self.space = self.space_after(state)
        born = state.objects[len(self.state.objects):]
        self.input += [f"object {o.address:x} {o.size:x}" for o in born]
        self.state = state.copy()
