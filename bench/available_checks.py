#!/usr/bin/env python3
"""A judge of dropped checks that stands apart from the compiler: random small functions, made as trees with the numbers
of their checks, of those that are available on every path, and of those that the ranges of a named object decide. All
paths are gone along, each loop at most twice, and none of this knows of nodes, edges or sets that are solved for. Texts
with more than 20000 paths are left out.

usage: python3 bench/available_checks.py SEED COUNT      prints one row a text, its numbers and then the text
"""

import random
import sys

WORD = 1 << 64
KINDS = ("spatial", "temporal")


# ---- keys: a base, the members that a range is narrowed to, a constant, and a scaled variable

class Key:
    def __init__(self, base, path=(), constant=0, scaled=None):
        self.base, self.path, self.constant, self.scaled = base, path, constant % WORD, scaled

    def plus(self, constant):
        return Key(self.base, self.path, self.constant + constant, self.scaled)

    def indexed(self, variable, size):
        return None if self.scaled else Key(self.base, self.path, self.constant, (variable, size))

    def member(self, offset, size):
        constant = (self.constant + offset) % WORD
        return Key(self.base, ((constant, self.scaled, size),) + self.path, constant, self.scaled)

    def same(self):
        return self.base, self.path, self.constant, self.scaled

    def variables(self):
        found = {self.base[1]} if self.base[0] == "plain" else set()
        return found | {it[0] for it in (self.scaled, *(m[1] for m in self.path)) if it}


# ---- what is written: lvalues that are judged

class Place:
    """A judged lvalue: its text, its key if it has one, and its size."""

    def __init__(self, text, key, size):
        self.text, self.key, self.size = text, key, size


class Writer:
    INTS, COUNTERS, POINTERS, ARRAYS = ("n", "k"), ("i", "j"), ("p", "q", "r"), (("a", 4), ("b", 3))

    def __init__(self, seed):
        self.random, self.blocks, self.places = random.Random(seed), 0, []

    def any(self, *values):
        return self.random.choice(values)

    def place(self, arrays):
        """A place among the pointers, the arrays in scope, a structure and a static array."""
        choice = self.random.randrange(10)
        if choice < 2:
            name = self.any(*self.POINTERS)
            return Place(f"*{name}", Key(("plain", name)), 4)
        if choice < 4:
            name, number = self.any(*self.POINTERS), self.random.randrange(3)
            text = self.any(f"{name}[{number}]", f"*({name}+{number})", f"*({number}+{name})")
            return Place(text, Key(("plain", name)).plus(4 * number), 4)
        if choice == 4:
            name, index = self.any(*self.POINTERS), self.any(*self.INTS, *self.COUNTERS)
            return Place(f"{name}[{index}]", Key(("plain", name)).indexed(index, 4), 4)
        if choice == 5:
            return Place("t->b[%d]" % (number := self.random.randrange(3)), Key(("plain", "t")).member(4, 8).plus(4 * number), 4)
        if choice == 6:
            return Place("t->x", Key(("plain", "t")).member(0, 4), 4)
        if choice == 7:
            index = self.any(*self.INTS)
            return Place(f"{self.any('p', 'q')}[{index}+1]", None, 4)
        kind, name = self.any(("automatic", self.any(*arrays)[0]), ("static", "g"))
        if self.random.randrange(2):
            number = self.random.randrange(5)
            return Place(f"{name}[{number}]", Key((kind, name)).plus(4 * number), 4)
        index = self.any(*self.INTS, *self.COUNTERS)
        return Place(f"{name}[{index}]", Key((kind, name)).indexed(index, 4), 4)

    # ---- statements: text, and how control goes through them

    def access(self, arrays, loops):
        """A place with the counted loops around it; its number stands for its two checks."""
        place = self.place(arrays)
        self.places.append((place, tuple(loops)))
        return place, ("access", len(self.places) - 1)

    def condition(self, arrays, loops):
        name = self.any(*self.INTS)
        if self.random.randrange(3):
            return name, ("seq", [])
        place, checks = self.access(arrays, loops)
        if self.random.randrange(2):
            return place.text, checks
        return f"{name} && {place.text}", ("either", [("seq", []), checks])

    def simple(self, arrays, loops, held):
        choice = self.random.randrange(12)
        ints = [it for it in (*self.INTS, *self.COUNTERS) if it not in held]
        if choice < 3:
            place, checks = self.access(arrays, loops)
            return f"{place.text}={self.any('1', *self.INTS)};", checks
        if choice < 5:
            name = self.any(*ints)
            place, checks = self.access(arrays, loops)
            return f"{name}={place.text};", ("seq", [checks, ("assign", name)])
        if choice == 5:
            left, (right, read) = self.place(arrays), self.access(arrays, loops)
            self.places.append((left, tuple(loops)))
            return f"{left.text}={right.text};", ("seq", [read, ("access", len(self.places) - 1)])
        if choice == 6:
            place, checks = self.access(arrays, loops)
            return f"{place.text}+=1;", checks
        if choice == 7:
            name = self.any(*self.POINTERS)
            return f"{name}={self.any(*self.POINTERS, *(it[0] for it in arrays))};", ("assign", name)
        if choice == 8:
            name = self.any(*self.POINTERS, *ints)
            return self.any(f"{name}++;", f"--{name};", f"{name}+=1;"), ("assign", name)
        if choice == 9:
            return "h();", ("call", None)
        if choice == 10:
            return "free(r);", ("call", None)
        name = self.any(*ints)
        return f"{name}=2;", ("assign", name)

    def block(self, arrays, loops, held, depth, inside):
        name, count = f"c{self.blocks}", self.any(1, 2, 4)
        self.blocks += 1
        text, flow = self.statements((*arrays, (name, count)), loops, held, depth - 1, inside)
        return f"{{int {name}[{count}];{text}}}", ("scope", flow)

    def counted(self, arrays, loops, held, depth):
        free = [it for it in self.COUNTERS if it not in held]
        if not free:
            return self.simple(arrays, loops, held)
        name, first, behind = self.any(*free), self.any(0, 1, 3), self.any(2, 3, 4, 5)
        text, flow = self.statements(arrays, (*loops, (name, first, behind)), (*held, name), depth - 1, True)
        return (f"for({name}={first};{name}<{behind};{name}++){{{text}}}",
                ("loop", ("assign", name), ("seq", []), flow, ("assign", name)))

    def statement(self, arrays, loops, held, depth, inside):
        choice = self.random.randrange(16)
        if depth == 0 or choice < 8:
            return self.simple(arrays, loops, held)
        if choice == 8 and inside:
            return self.any(("break;", ("leave", "break")), ("continue;", ("leave", "continue")))
        if choice == 9:
            return "return 0;", ("leave", "return")
        if choice == 10:
            return self.block(arrays, loops, held, depth, inside)
        if choice == 11:
            return self.counted(arrays, loops, held, depth)
        text, flow = self.condition(arrays, loops)
        if choice == 12:
            body, inner = self.statements(arrays, loops, held, depth - 1, True)
            return f"while({text}){{{body}}}", ("loop", ("seq", []), flow, inner, ("seq", []))
        then, taken = self.statements(arrays, loops, held, depth - 1, inside)
        if choice < 15:
            return f"if({text}){{{then}}}", ("seq", [flow, ("either", [taken, ("seq", [])])])
        other, passed = self.statements(arrays, loops, held, depth - 1, inside)
        return f"if({text}){{{then}}}else{{{other}}}", ("seq", [flow, ("either", [taken, passed])])

    def statements(self, arrays, loops, held, depth, inside):
        parts = [self.statement(arrays, loops, held, depth, inside) for _ in range(self.random.randrange(1, 4))]
        return "".join(it[0] for it in parts), ("seq", [it[1] for it in parts])


# ---- paths: lists of events, and how each ends

def paths(flow):
    what = flow[0]
    if what in ("access", "assign", "call"):
        yield [flow], None
    elif what == "leave":
        yield [], flow[1]
    elif what == "either":
        for it in flow[1]:
            yield from paths(it)
    elif what == "scope":
        for events, end in paths(flow[1]):
            yield events + [("call", None)], end
    elif what == "seq":
        yield from in_turn(flow[1])
    else:
        yield from looped(*flow[1:])


def in_turn(flows):
    if not flows:
        yield [], None
        return
    for events, end in paths(flows[0]):
        if end:
            yield events, end
        else:
            for more, last in in_turn(flows[1:]):
                yield events + more, last


def looped(first, condition, body, step, turns=2):
    for events, _ in paths(first):
        for more, end in turned(condition, body, step, turns):
            yield events + more, end


def turned(condition, body, step, turns):
    for events, _ in paths(condition):
        yield events, None
        if turns:
            for inner, end in paths(body):
                if end == "return":
                    yield events + inner, end
                elif end == "break":
                    yield events + inner, None
                else:
                    for last, _ in paths(step):
                        for more, how in turned(condition, body, step, turns - 1):
                            yield events + inner + last + more, how


# ---- which checks go

def available(flow, places, most=20000):
    """The checks that are available on every path, or nothing where there are too many paths."""
    missed = set()
    for number, (events, _) in enumerate(paths(flow)):
        if number >= most:
            return None
        known = set()
        for what, it in events:
            if what == "access":
                place = places[it][0]
                if place.key:
                    for kind in KINDS:
                        fact = kind, place.key.same(), place.size, frozenset(place.key.variables())
                        if not any(one[:2] == fact[:2] and one[2] >= fact[2] for one in known):
                            missed.add((it, kind))
                        known.add(fact)
            elif what == "assign":
                known = {one for one in known if it not in one[3]}
            else:
                known = {one for one in known if one[0] == "spatial"}
    return {(it, kind) for it, (place, _) in enumerate(places) if place.key for kind in KINDS if (it, kind) not in missed}


def decided(place, loops, sizes):
    """Whether the ranges of a named object and its members decide a check."""
    key = place.key
    if not key or key.base[0] == "plain" or any(m[1] for m in key.path):
        return False

    def inside(constant):
        within = constant + place.size <= sizes[key.base[1]]
        return within and all(m[0] <= constant and constant + place.size <= m[0] + m[2] for m in key.path)

    if not key.scaled:
        return inside(key.constant)
    name, size = key.scaled
    for counter, first, behind in loops:
        if counter == name:
            return first >= behind or (inside(key.constant + first * size) and inside(key.constant + (behind - 1) * size))
    return False


def judged(seed):
    """A text with the number of its checks and of those that go, or nothing where its paths are too many."""
    writer = Writer(seed)
    text, flow = writer.statements(writer.ARRAYS, (), (), 3, False)
    gone = available(flow, writer.places)
    if gone is None:
        return None
    alone = len(gone)
    sizes = {"a": 16, "b": 12, "g": 20}
    for number in range(writer.blocks):
        mark = text.index(f"int c{number}[") + len(f"int c{number}[")
        sizes[f"c{number}"] = 4 * int(text[mark:text.index("]", mark)])
    for it, (place, loops) in enumerate(writer.places):
        if decided(place, loops, sizes):
            gone |= {(it, kind) for kind in KINDS}
    head = "struct s{int x;int b[2];};int g[5];void h(void){}int f(int*p,int*q,int*r,struct s*t,int n,int k){int i=0;int j=0;int a[4];int b[3];"
    return 2 * len(writer.places), len(gone), alone, f"{head}{text}return 0;}}int main(void){{return 0;}}"


def main():
    seed, count = int(sys.argv[1]), int(sys.argv[2])
    while count:
        found = judged(seed)
        seed += 1
        if found and found[0]:
            print(f"{found[0]} checks, {found[2]} available, {found[1]} with those decided: {found[3]}")
            count -= 1


main()
