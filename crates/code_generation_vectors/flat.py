#!/usr/bin/env python3
"""Makes stdin and stdout of this program: programs of flat code, and what they do by the definitions of flat code
(`flat_code/specs`) and of the operators (RISC-V unprivileged ISA manual, "RV32I", "RV64I" and "M"), which are
written again here. Nothing of this repository's programs is asked.

usage: python3 crates/code_generation_vectors/flat.py make
"""

import os
import sys

EDGES = [0, 1, 0x7fffffff, 0x80000000, 0xffffffff, 0x123456789abcdef1, 2 ** 63 - 1, 2 ** 63, 2 ** 63 + 1,
         2 ** 64 - 2 ** 31, 2 ** 64 - 1]
# numbers about those that fit an instruction themselves
NUMBERS = [31, 32, 63, 64, 2047, 2048, 2049, 2 ** 64 - 2049, 2 ** 64 - 2048, 2 ** 64 - 2047]
OPERATORS = "add sub sll slt sltu xor srl sra or and mul mulh mulhsu mulhu div divu rem remu".split()
OPERATORS_32 = "addw subw sllw srlw sraw mulw divw divuw remw remuw".split()
CONDITIONS = "beq bne blt bge bltu bgeu".split()
LOADS = {"lb": 1, "lh": 2, "lw": 4, "ld": 8, "lbu": 1, "lhu": 2, "lwu": 4}
STORES = {"sb": 1, "sh": 2, "sw": 4, "sd": 8}
REPORTS = {120: "spatial violation", 121: "temporal violation", 122: "bad call", 123: "bad free",
           124: "division by zero", 125: "stack exhausted", 126: "keys exhausted", 134: "abort"}
OBJECTS = 0x10000000
MASK = 2 ** 64 - 1


def signed(bits, n):
    """The number that a word of so many bits stands for, with its sign."""
    n %= 2 ** bits
    return n - 2 ** bits if n >= 2 ** (bits - 1) else n


def quotient(a, b):
    """Division rounds towards zero."""
    return abs(a) // abs(b) * (1 if (a < 0) == (b < 0) else -1)


def operated(op, bits, a, b):
    """What an operator of so many bits gives, as a number of any size."""
    sa, sb, by = signed(bits, a), signed(bits, b), b % bits
    if op == "div":
        return -1 if b == 0 else quotient(sa, sb)
    if op == "divu":
        return -1 if b == 0 else a // b
    if op == "rem":
        return a if b == 0 else sa - quotient(sa, sb) * sb
    if op == "remu":
        return a if b == 0 else a % b
    return {"add": a + b, "sub": a - b, "sll": a << by, "slt": int(sa < sb), "sltu": int(a < b), "xor": a ^ b,
            "srl": a >> by, "sra": sa >> by, "or": a | b, "and": a & b, "mul": a * b, "mulh": sa * sb >> 64,
            "mulhsu": sa * b >> 64, "mulhu": a * b >> 64}[op]


def holds(op, a, b):
    sa, sb = signed(64, a), signed(64, b)
    return {"beq": a == b, "bne": a != b, "blt": sa < sb, "bge": sa >= sb, "bltu": a < b, "bgeu": a >= b}[op]


def expanded(lines):
    """The instructions of a function's rows: families are written out."""
    mixed = lambda into, k: [("muli", into, into, 31), ("add", into, into, k)]
    for line in lines:
        name, *words = line.split()
        if name == "try":
            op = words[0]
            for left in EDGES:
                yield from [("constant", 0, left), ("constant", 3, 0)]
                for edge in EDGES + (NUMBERS if op.endswith("i") else []):
                    right = edge if op.endswith("i") else 1
                    yield ("constant", 1, edge)
                    if op in CONDITIONS or op[:-1] in CONDITIONS:
                        yield from [("constant", 2, 1), (op, 0, right, 1), ("constant", 2, 2)]
                    else:
                        yield (op, 2, 0, right)
                    yield from mixed(3, 2)
                yield ("call", 1, 3, 0)
            continue
        numbers = [int(word) for word in words]
        if name == "turns":
            yield from [("turn",)] * numbers[0]
        elif name == "sums":
            yield from [("add", numbers[0], numbers[0], numbers[1])] * numbers[2]
        elif name == "fill":
            for k in range(numbers[0], numbers[0] + numbers[1]):
                yield ("constant", k, k * 0x9e3779b9 % 2 ** 64 % 0x7ffff800)
        elif name == "mix":
            for k in range(numbers[0], numbers[0] + numbers[1]):
                yield from mixed(numbers[2], k)
        else:
            yield (name, *numbers)


class Function:
    def __init__(self, head, lines):
        self.parameters, self.results, names = (int(word) for word in head.split()[:3])
        self.is_runtime = head.split()[3] == "runtime"
        self.room = 8 + 8 * names
        self.head, self.lines, self.body = head, lines, list(expanded(lines))


class Machine:
    """A run of a program of flat code."""

    def __init__(self, functions, calls, entry, given):
        self.functions, self.calls, self.given = functions, calls, list(given)
        self.memory, self.output = {}, bytearray()
        self.function, self.place, self.values, self.frames = entry, 0, {}, []

    def charge(self):
        return sum(self.functions[f].room for f in [self.function] + [it[0] for it in self.frames]
                   if not self.functions[f].is_runtime)

    def enter(self, number, first, count, into, results):
        callee = self.functions[number]
        assert (callee.parameters, callee.results) == (count, results)
        self.frames.append((self.function, self.place + 1, into, self.values))
        self.values = {k: self.values.get(first + k, 0) for k in range(count)}
        self.function, self.place = number, 0
        assert self.charge() <= self.calls, "no room"

    def leave(self, start):
        count, given = self.functions[self.function].results, self.values
        self.function, self.place, into, self.values = self.frames.pop()
        for k in range(count):
            self.values[into + k] = given.get(start + k, 0)

    def access(self, at, offset, size):
        address = (self.values.get(at, 0) + offset) % 2 ** 64
        assert OBJECTS <= address and address + size <= OBJECTS + 8192, "an access outside"
        return range(address, address + size)

    def run(self):
        """The status, the output and the report."""
        while True:
            instruction = self.functions[self.function].body[self.place]
            ended = self.step(*instruction)
            if ended:
                return (ended[0], bytes(self.output), ended[1])

    def step(self, name, a=0, b=0, c=0, d=0, e=0):
        v = lambda k: self.values.get(k, 0)
        base, takes_number = (name[:-1], True) if name.endswith("i") else (name, False)
        if name == "call":
            callee = self.functions[a]
            return self.enter(a, b, callee.parameters, c, callee.results)
        if name == "address":
            number, rest = divmod(v(a) - 0x10000, 16)
            assert rest == 0 and not self.functions[number].is_runtime
            return self.enter(number, b, c, d, e)
        if name == "return":
            return self.leave(a)
        if name == "exit":
            return (v(a) % 256, b"")
        if name == "end":
            return (a, b"" if a not in REPORTS else b"sbcets: %s at line %d\n" % (REPORTS[a].encode(), b))
        next_place = self.place + 1
        if name == "constant":
            self.values[a] = b % 2 ** 64
        elif name == "move":
            self.values[a] = v(b)
        elif name == "forward":
            next_place += a
        elif name == "back":
            next_place = max(0, self.place - a)
        elif name == "charged":
            self.values[a] = self.charge()
        elif name == "get":
            self.values[a] = self.given.pop(0) if self.given else MASK
        elif name == "put":
            self.output.append(v(a) % 256)
        elif base in OPERATORS:
            self.values[a] = operated(base, 64, v(b), (c if takes_number else v(c)) % 2 ** 64) % 2 ** 64
        elif base in OPERATORS_32:
            right = (c if takes_number else v(c)) % 2 ** 32
            self.values[a] = signed(32, operated(base.replace("w", ""), 32, v(b) % 2 ** 32, right)) % 2 ** 64
        elif base in CONDITIONS:
            next_place += c if holds(base, v(a), (b if takes_number else v(b)) % 2 ** 64) else 0
        elif name in LOADS:
            size = LOADS[name]
            n = int.from_bytes(bytes(self.memory.get(k, 0) for k in self.access(b, c, size)), "little")
            self.values[a] = n if name.endswith("u") else signed(8 * size, n) % 2 ** 64
        elif name in STORES:
            for k, place in enumerate(self.access(a, b, STORES[name])):
                self.memory[place] = v(c) >> 8 * k & 255
        else:
            assert name == "turn", name
        self.place = next_place


SHOW = ("1 0 2 program", ["constant 1 8", "put 0", "srli 0 0 8", "subi 1 1 1", "bnei 1 0 1", "return 0", "back 5"])
BEGIN = ["turn", "turn", "turn"]
END = ["constant 0 0", "exit 0"]


def rows():
    """Each program's name, budget, input and functions. The entry is the first, and the second shows a word."""
    for op in OPERATORS + OPERATORS_32 + CONDITIONS:
        for name in (op, op + "i"):
            yield name, 65536, b"", [("0 0 4 program", BEGIN + [f"try {name}"] + END), SHOW]
            # the same with a record that offsets of 12 bits do not reach
            if op in ("add", "sub", "blt", "divw"):
                yield "far_" + name, 65536, b"", [("0 0 400 program", BEGIN + [f"try {name}"] + END), SHOW]
    yield from constants()
    yield from copies()
    yield from unneeded()
    yield from joined()
    yield from memory()
    yield from outside()
    yield from endings()
    yield from calls()
    yield from large()
    yield from refused()


def constants():
    numbers = sorted({n % 2 ** 64 for k in (8, 11, 12, 20, 31, 32, 43, 52, 63, 64)
                      for n in (2 ** k - 2 ** 11 - 1, 2 ** k - 2 ** 11, 2 ** k - 1, 2 ** k, 2 ** k + 2 ** 11 - 1,
                                -2 ** k, -2 ** k - 1, -2 ** k + 2 ** 11)} | {0x123456789abcdef1})
    body = [line for n in numbers for line in (f"constant 3 {n}", "move 2 3", "call 1 2 0")]
    for name, names in (("constants", 4), ("far_constants", 300)):
        yield name, 65536, b"", [(f"0 0 {names} program", BEGIN + body + END), SHOW]


def copies():
    """Copies within one place and between two, and jumps to the next instruction, to one of which another leads."""
    body = ["constant 1 7", "move 1 1", "move 2 1", "move 2 2", "forward 0", "addi 3 2 1", "forward 0", "forward 0",
            "call 1 3 0", "constant 5 9", "move 3 5", "move 3 3", "call 1 3 0", "forward 1", "move 3 1", "call 1 3 0",
            "constant 0 3", "forward 0", "turn", "move 3 0", "call 1 3 0", "move 4 0", "subi 4 4 1", "move 0 4",
            "beqi 0 0 1", "back 8", "forward 0"]
    for name, names in (("copies", 6), ("far_copies", 300)):
        yield name, 65536, b"", [(f"0 0 {names} program", BEGIN + body + END), SHOW]
    # names that wait in more places than registers, each copied to itself, and to the next one
    for name, names in (("many_copies", 30), ("many_far_copies", 300)):
        body = [f"fill 1 {names - 1}"] + [f"move {k} {k}" for k in range(1, names)]
        body += [f"move {k} {k + 1}" for k in range(1, names - 1)] + ["constant 0 0", f"mix 1 {names - 1} 0", "move 1 0"]
        yield name, 65536, b"", [(f"0 0 {names} program", BEGIN + body + ["call 1 1 0"] + END), SHOW]


def unneeded():
    """Values that are not needed, of each kind: made and never read, made anew before they are read, needed on one of
    two ways alone, and made of values that are needed or of ones that are not; between values that wait."""
    show = ["move 3 1", "call 1 3 0"]
    body = ["constant 1 7", "constant 2 9", "charged 2", "move 2 1", "add 2 1 1", "addi 2 1 2048", "addw 2 1 1",
            "sllwi 2 1 33", "divu 4 1 2", "rem 5 4 1"] + show
    body += ["constant 6 11", "beqi 1 7 2", "move 3 6", "call 1 3 0", "constant 6 5", "move 3 6", "call 1 3 0"]
    # those that are done whether or not their values are needed
    body += [f"constant 4 {OBJECTS}", "sd 4 0 1", "ld 2 4 0", "get 2", "get 2", "move 3 2", "call 1 3 0", "get 2",
             "call 2 1 2", "get 3", "call 1 3 0"]
    # in a loop: a value that only itself is made of, one that is needed behind it alone, and one not at the last turn
    body += ["constant 0 4", "constant 2 0", "constant 5 1", "turn", "addi 2 2 3", "mul 5 5 1", "add 6 5 0",
             "subi 0 0 1", "beqi 0 0 2", "add 1 1 6", "back 7", "move 3 5", "call 1 3 0"] + show
    # before a jump, behind a branch that leads to the next instruction, and at the last instruction
    body += ["constant 2 1", "forward 0", "bnei 1 0 0", "constant 2 3", "forward 1", "constant 2 4", "move 3 1",
             "call 1 3 0", "constant 0 0", "exit 0", "constant 2 6"]
    callee = ["constant 1 3", "muli 0 0 5", "addi 1 0 1", "return 0"]
    for name, names in (("unneeded", 8), ("far_unneeded", 300)):
        yield name, 65536, bytes(range(40, 48)), [(f"0 0 {names} program", BEGIN + body), SHOW, ("1 1 2 program", callee)]
    # more values than registers wait while as many are made that are not needed
    for name, names in (("many_unneeded", 60), ("many_far_unneeded", 400)):
        half = names // 2
        body = [f"fill 1 {half}"] + [line for k in range(1, half)
                                     for line in (f"add {half + k} {k} {k + 1}", f"move {half + k} {k}", f"charged {half + k}")]
        body += ["constant 0 0", f"mix 1 {half} 0", f"move {names - 1} 0", f"call 1 {names - 1} 0"]
        yield name, 65536, b"", [(f"0 0 {names} program", BEGIN + body + END), SHOW]


def joined():
    """Values that copies join: in a chain, to two others, round in a loop, where one changes while the other is needed,
    and as arguments and results of calls; all in registers, and more than there are."""
    for name, count in (("joined", 4), ("many_joined", 16), ("far_joined", 300)):
        first = 2 * count + 4
        body = [f"fill 0 {count}"] + [f"move {count + k} {k}" for k in range(count)]
        # a chain, whose first changes before its last is read
        body += [f"move {first} {count}", f"move {first + 1} {first}", f"addi {count} {count} 1",
                 f"add {count} {count} {first + 1}", f"move {first + 2} {count}", f"call 1 {first + 2} {first}"]
        # one round after the other, by three copies each
        body += [f"constant {first} 5", "turn", f"move {first + 1} {count}", f"move {count} {count + 1}",
                 f"move {count + 1} {first + 1}", f"add {count + 1} {count + 1} {count}", f"subi {first} {first} 1",
                 f"beqi {first} 0 1", "back 7"]
        body += [f"move {first + 1} {count + 1}", f"move {first + 2} {count}", f"call 2 {first + 1} {first + 1}",
                 f"move {count} {first + 1}", f"move {count + 1} {first + 2}"]
        body += [f"constant {first} 0", f"mix {count} {count} {first}", f"move {first + 1} {first}",
                 f"call 1 {first + 1} {first}"]
        callee = ["move 2 1", "move 1 0", "move 0 2", "muli 0 0 3", "return 0"]
        yield name, 65536, b"", [(f"0 0 {first + 4} program", BEGIN + body + END), SHOW, ("2 2 3 program", callee)]


def memory():
    """Words are stored in each size at offsets at the edges, and loaded in each size."""
    for name, names in (("memory", 8), ("far_memory", 300)):
        body = [f"constant 4 {OBJECTS}", "constant 5 9255003132036915185", f"constant 6 {2 ** 64 - 1}"]
        for offset in (0, 8, 1024, 2040):
            for store, size in STORES.items():
                body += [f"sd 4 {offset} 6", f"{store} 4 {offset + 8 - size} 5"]
                for load, width in LOADS.items():
                    body += [f"{load} 3 4 {offset + 8 - width}", "call 1 3 0", f"{load} 3 4 {offset}", "call 1 3 0"]
        body += ["addi 4 4 6144", "sd 4 2040 5", "ld 3 4 2040", "call 1 3 0", "lb 3 4 2047", "call 1 3 0"]
        yield name, 65536, b"", [(f"0 0 {names} program", BEGIN + body + END), SHOW]


def outside():
    echo = BEGIN + ["get 0", "blti 0 0 2", "put 0", "back 3", "move 3 0", "call 1 3 0", "get 3", "call 1 3 0"]
    echo += ["turn", "exit 0"]
    for names in (4, 300):
        yield f"echo_{names}", 65536, b"", [(f"0 0 {names} program", echo), SHOW]
        yield f"echo_bytes_{names}", 65536, bytes(range(256)), [(f"0 0 {names} program", echo), SHOW]
    for status in (0, 1, 255, 256, 2 ** 64 - 1):
        yield f"exit_{status}", 65536, b"", [("0 0 1 program", BEGIN + [f"constant 0 {status}", "exit 0"]), SHOW]


def endings():
    for status in sorted(REPORTS):
        for line in (1, 4294967295):
            yield f"end_{status}_{line}", 65536, b"", [("0 0 1 program", BEGIN + [f"end {status} {line}"]), SHOW]
    yield "end_7", 65536, b"", [("0 0 1 program", BEGIN + ["end 7"]), SHOW]
    # the least and the greatest line of each number of digits
    for status in (123, 124):
        for digits in range(1, 10):
            for line in (10 ** (digits - 1), 10 ** digits - 1):
                yield f"line_{status}_{line}", 65536, b"", [("0 0 1 program", BEGIN + [f"end {status} {line}"]), SHOW]


def calls():
    # a sum over a loop of calls by number, and by address, with values that wait in more places than registers
    for name, count in (("few_wait", 4), ("many_wait", 30), ("far_wait", 400)):
        caller = BEGIN + [f"fill 2 {count}", "constant 0 3", "constant 1 0"]
        caller += ["turn", "move 500 0", "move 501 1", "call 2 500 502", "add 1 502 503"]
        caller += ["subi 0 0 1", "beqi 0 0 1", "back 7"]
        caller += [f"mix 2 {count} 1", "move 504 1", "call 1 504 0"] + END
        callee = [f"fill 2 {count}", f"mix 2 {count} 1", "mul 0 0 1", "return 0"]
        yield name, 65536, b"", [("0 0 505 program", caller), SHOW, (f"2 2 {2 + count} program", callee)]
        by_address = [line.replace("call 2 500 502", "address 505 500 2 502 2") for line in caller]
        by_address = BEGIN + [f"constant 505 {0x10000 + 32}"] + by_address[3:]
        yield name + "_by_address", 65536, b"", [("0 0 506 program", by_address), SHOW,
                                                 (f"2 2 {2 + count} program", callee)]
        yield name + "_of_runtime", 65536, b"", [("0 0 505 program", caller), SHOW,
                                                 (f"2 2 {2 + count} runtime", callee)]
    # each call asks what is charged, and goes deeper while there is room for one more
    deep = ["charged 1", "addi 2 1 {room}", "bgeui 2 {over} 5", "addi 3 0 1", "call 2 3 4", "add 4 4 0", "return 4",
            "turn", "move 4 1", "return 4"]
    for name, names, budget in (("deep", 5, 65536), ("deeper", 8, 1048576), ("deep_far", 300, 1048576)):
        room = 8 + 8 * names
        body = [line.format(room=room, over=budget + 1) for line in deep]
        yield name, budget, b"", [("0 0 4 program", BEGIN + ["constant 2 0", "call 2 2 3", "call 1 3 0"] + END), SHOW,
                                  (f"1 1 {names} program", body)]
    # a recursion that ends with the report that a budget has no room
    body = ["charged 1", "addi 2 1 48", "bltui 2 65537 1", "end 125 33", "addi 0 0 1", "put 0", "call 2 0 3"]
    body += ["return 3"]
    yield "no_room", 65536, b"", [("0 0 4 program", BEGIN + ["constant 2 0", "call 2 2 3"] + END), SHOW,
                                  ("1 1 5 program", body)]
    # many arguments and results
    for count in (12, 255, 256, 257, 600, 1024):
        caller = BEGIN + [f"fill 0 {count}", f"call 2 0 {count}", f"constant {2 * count} 0",
                          f"mix 0 {2 * count} {2 * count}", f"move {2 * count + 1} {2 * count}",
                          f"call 1 {2 * count + 1} 0"] + END
        callee = [f"constant {count} 7", f"mix 0 {count} {count}", f"move 0 {count}", "return 0"]
        yield f"arguments_{count}", 131072, b"", [(f"0 0 {2 * count + 2} program", caller), SHOW,
                                                  (f"{count} {count} {count + 1} program", callee)]


def large():
    # many names, all needed together
    for count in (1000, 5000):
        body = BEGIN + [f"fill 1 {count}", "constant 0 0", f"mix 1 {count} 0", f"move {count + 1} 0",
                        f"call 1 {count + 1} {count + 1}", f"mix 1 {count} 0", f"move {count + 1} 0",
                        f"call 1 {count + 1} {count + 1}"] + END
        yield f"names_{count}", 131072, b"", [(f"0 0 {count + 2} program", body), SHOW]
    # many instructions, done ten times each
    body = BEGIN + ["constant 1 10", "constant 3 1", "fill 4 4", "turn", "sums 3 1 10000", "mix 4 4 3", "xori 3 3 1023",
                    "sums 3 4 10000", "subi 1 1 1", "beqi 1 0 1", "back 20012", "call 1 3 0"] + END
    yield "instructions_20000", 65536, b"", [("0 0 8 program", body), SHOW]
    # Branches and jumps at the edges of what their forms reach: 1,024 words, and 262,143, each item between counted in
    # its longest form, in which a branch has three words and a jump two.
    for count in (1019, 1020, 1021, 262138, 262139, 262140, 262141):
        far = ["constant 3 1", f"bnei 3 0 {count}", f"turns {count}", "addi 3 3 1", "call 1 3 0",
               "bgei 3 4 2", f"back {count + 3}"]
        over = far + [f"forward {count}", f"turns {count}", "call 1 3 0"]
        yield f"over_{count}", 65536, b"", [("0 0 4 program", BEGIN + over + END), SHOW]
    for count in (262132, 262133, 262134, 262135, 262136, 262137):
        loop = ["constant 3 3", "subi 3 3 1", f"turns {count}", "beqi 3 0 1", f"back {count + 2}", "call 1 3 0"]
        yield f"back_{count}", 65536, b"", [("0 0 4 program", BEGIN + loop + END), SHOW]
    # the entry behind a function of more than 1 MiB
    long = ("1 1 2 program", ["forward 300000", "turns 300000", "addi 0 0 5", "return 0"])
    caller = BEGIN + ["constant 3 4", "call 0 3 3", "call 1 3 0"] + END
    yield "far_calls", 65536, b"", [long, SHOW, ("0 0 4 program", caller)]


def refused():
    """A value that no path makes, and names without homes."""
    yield "not_made", 65536, b"", [("0 0 4 program", BEGIN + ["put 0"] + END), SHOW]
    yield "no_home", 65536, b"", [("0 0 1 program", BEGIN + ["constant 1 0"] + END), SHOW]
    yield "past_homes", 65536, b"", [("0 0 1 program", BEGIN + ["constant 4294967295 0"] + END), SHOW]


def expected(name, calls, given, functions, entry):
    if name in ("not_made", "no_home", "past_homes"):
        return f"{name} cannot be planned\n"
    status, output, report = Machine(functions, calls, entry, given).run()
    return " ".join([name, str(status), output.hex()] + ([report.decode().rstrip()] if report else [])) + "\n"


def main():
    if sys.argv[1:] != ["make"]:
        sys.exit(__doc__)
    here = os.path.dirname(os.path.abspath(__file__))
    given_texts, expected_texts = [], []
    for name, calls, given, functions in rows():
        functions = [Function(*function) for function in functions]
        entry = 2 if name == "far_calls" else 0
        expected_texts.append(expected(name, calls, given, functions, entry))
        lines = [f"{name} {calls} {entry} {given.hex()}".rstrip()]
        for function in functions:
            lines += [f"function {function.head}"] + function.lines
        given_texts.append("\n".join(lines) + "\n")
    with open(f"{here}/stdin", "w") as out:
        out.write("%%\n".join(given_texts))
    with open(f"{here}/stdout", "w") as out:
        out.write("".join(expected_texts))
    print(len(given_texts), "programs", file=sys.stderr)


if __name__ == "__main__":
    main()
