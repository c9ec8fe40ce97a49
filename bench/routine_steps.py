#!/usr/bin/env python3
"""Holds the steps that the rows of crates/routine_vectors allow against the clauses of the routines, and runs each row
with a limit of no steps, so that the program tells how many steps each took beyond it. It prints of each routine its
clause and the row that comes closest to its limit: the steps in the direct form, in two levels, and of the call of its
function where it may be one (in the form that takes more), beside the limit. `routine_steps.txt` has what it printed.

usage: python3 bench/routine_steps.py     (the program must be built: `rt run` in crates/routine_vectors)
"""

import os
import re
import subprocess
import sys

import cost_table

TOP = os.path.join(os.path.dirname(os.path.realpath(__file__)), "..")
ROWS = f"{TOP}/crates/routine_vectors"
PROGRAM = f"{ROWS}/out/routine_vectors"
STEPS = re.compile(r" (\d+) steps over")
# a function may take two steps more: its return, and the number of an ending
OF_FUNCTION = 2

sys.path.insert(0, ROWS)
import vectors  # noqa: E402

WRAPPERS = "lib_wrappers/specs"
ACCESSING = f"{WRAPPERS}/AccessRoutines/Accessing.antt"
READING = f"{WRAPPERS}/AreaRoutines/Reading.antt"
# where the clauses of routines beside those of the library stand
CLAUSES = {
    "spatial_check": ("flat_actions/specs/Judgement/Testing.antt", "IsSpatialRoutine"),
    "spatial_check_of_number": ("flat_actions/specs/Judgement/Testing.antt", "IsSpatialRoutine"),
    "temporal_check": ("flat_actions/specs/Judgement/Testing.antt", "IsTemporalRoutine"),
    "narrow": ("flat_actions/specs/Narrowing.antt", "IsNarrowRoutine"),
    "move_bytes": ("flat_actions/specs/Ranges.antt", "IsByteMoveRoutine"),
    "move_tagged": ("flat_actions/specs/Ranges.antt", "IsTaggedMoveRoutine"),
    "fill": ("flat_actions/specs/Ranges.antt", "IsFillRoutine"),
    "scan": ("flat_actions/specs/Scanning.antt", "IsScanRoutine"),
    "scan_at_most": ("flat_actions/specs/Scanning.antt", "IsScanRoutine"),
    "put_bytes": (f"{WRAPPERS}/StringRoutines/Putting.antt", "IsPutRoutine"),
    "number": (f"{WRAPPERS}/PrintingRoutines/Numbers.antt", "IsNumberRoutine"),
    "digits": (f"{WRAPPERS}/PrintingRoutines/Digits.antt", "IsDigitsRoutine"),
    "zero": (f"{WRAPPERS}/AllocatingRoutines/Zeroing.antt", "IsZeroRoutine"),
    "enter": (f"{WRAPPERS}/AllocatingRoutines/Entering.antt", "IsEnterRoutine"),
    "leave": (f"{WRAPPERS}/AllocatingRoutines/Entering.antt", "IsLeaveRoutine"),
    "make_zero": (f"{WRAPPERS}/AreaRoutines/Values.antt", "IsMakeZeroRoutine"),
    "take_structure": (f"{WRAPPERS}/AreaRoutines/Values.antt", "IsTakeRoutine"),
    "put_structure": (f"{WRAPPERS}/AreaRoutines/Values.antt", "IsPutRoutine"),
    "take_part": (f"{WRAPPERS}/AreaRoutines/Parts.antt", "IsTakePartRoutine"),
}
# of routines for pointers the laws that give their steps
LAWS = {"forward": "pointers_move_by_elements", "back": "pointers_move_by_elements",
        "difference": "differences_are_in_elements"}


def steps_by_law(law):
    text = cost_table.text_of("flat_operators/src/laws.rt")
    found = re.search(rf"^pub fn {law}\(.*?^{{}}$", text, re.M | re.S)
    return int(re.search(r"\(λ s\. (\d+)\)", found[0])[1])


def last_numbers(path, name, count):
    """Of an action the steps of its clause, the last numbers in it."""
    found = re.findall(r"\d+", cost_table.body_of(path, name))
    return tuple(int(number) for number in found[-count:])


def clauses():
    """The constants and factors of the clauses, by the definitions."""
    found = {name: cost_table.steps_of(*place) for name, place in CLAUSES.items()}
    found.update((name, (steps_by_law(law), 0)) for name, law in LAWS.items())
    found["copy_structure"] = last_numbers(f"{WRAPPERS}/MovingRoutines/Structures.antt", "CopiesStructure", 2)
    for name, _, _, constant, factor in cost_table.signatures():
        found[name.lower()] = constant, factor
    return found


def accesses():
    """Those of an integer and of a pointer."""
    found = {}
    for name, path, steps in (("load", ACCESSING, "load_steps"), ("store", ACCESSING, "store_steps"),
                              ("read_part", READING, "read_steps")):
        found[name] = tuple(cost_table.steps_by_kind(path, steps, kind) for kind in ("Integer", "Pointer"))
    tests = sum(cost_table.steps_of(*CLAUSES[f"{kind}_check"])[0] for kind in ("spatial", "temporal"))
    for name in ("load", "store"):
        assert f"({tests} + {name}_steps" in cost_table.text_of(ACCESSING), name
        found[f"checked_{name}"] = tuple(tests + steps for steps in found[name])
    return found


class Row:
    """A row: its routine, its limit, and the text of it."""

    def __init__(self, line):
        self.text = line
        words = line.split(" ")
        self.name, self.limit = words[1], int(words[3], 16)
        self.direct = self.two_level = self.function = 0

    def steps(self):
        return max(self.direct, self.two_level)


def without_limits(text):
    """The rows, and the text that asks for them with no limit."""
    rows, lines = [], []
    for line in text.split("\n"):
        words = line.split(" ")
        if words[0] in ("row", "keep"):
            rows.append(Row(line))
            words[3] = "0"
        lines.append(" ".join(words))
    return rows, "\n".join(lines)


def steps_in(line):
    found = STEPS.search(line)
    return int(found[1]) if found else 0


def told(rows, text, scenes):
    """Gives each row its steps. A row tells a line, one more where it is a function, and both once more where the two
    forms differ."""
    place = -1
    for line in text.split("\n"):
        if line in scenes or not line:
            continue
        if line.startswith("but in two levels "):
            rows[place].two_level = steps_in(line)
        elif line.startswith("but as a function "):
            rows[place].function = max(rows[place].function, steps_in(line) + OF_FUNCTION)
        else:
            place += 1
            rows[place].direct = rows[place].two_level = steps_in(line)
    assert place + 1 == len(rows), (place + 1, len(rows))
    # a call that ended with the two steps more is told with the routine
    functions = {row.name for row in rows if row.function}
    for row in rows:
        if row.name in functions and not row.function:
            row.function = row.steps() + OF_FUNCTION


def worst(rows):
    """Of each routine the row that comes closest to its limit, and how many rows it has."""
    found = {}
    for row in rows:
        best, count = found.get(row.name, (row, 0))
        if row.steps() * max(best.limit, 1) > best.steps() * max(row.limit, 1):
            best = row
        found[row.name] = (best, count + 1)
    return found


def clause_text(name):
    if name == "printf":
        constant, each, factor = vectors.PRINTED
        return f"{constant} + {each}p + {factor}w"
    if name in vectors.ACCESSES:
        return "{}, {}".format(*vectors.ACCESSES[name])
    if name.startswith("narrow"):
        return f"{vectors.HANDED} + {vectors.PROMISES['narrow'][0]}"
    constant, factor = vectors.PROMISES[name]
    return f"{constant} + {factor}w" if factor else f"{constant}"


def main():
    if not os.path.exists(PROGRAM):
        sys.exit("build it: rt run in crates/routine_vectors")
    if clauses() != vectors.PROMISES or accesses() != vectors.ACCESSES:
        mine = {**clauses(), **accesses()}
        rows_have = {**vectors.PROMISES, **vectors.ACCESSES}
        sys.exit(f"rows and clauses differ: {sorted(mine.items() ^ rows_have.items())}")
    with open(f"{ROWS}/stdin") as stdin:
        text = stdin.read()
    scenes = {part.split("\n", 1)[0] for part in text.split("%%\n")}
    rows, asked = without_limits(text)
    run = subprocess.run([PROGRAM], input=asked, capture_output=True, check=True, text=True)
    told(rows, run.stdout, scenes)
    print("w: units of the source's work, bytes or digits. p: pieces of a format. An integer, a pointer.")
    print(f"{'routine':24} {'clause':>13} {'rows':>5} {'direct':>7} {'levels':>7} {'called':>7} {'limit':>7}")
    over = 0
    for name, (row, count) in sorted(worst(rows).items()):
        called = row.function or "-"
        print(f"{name:24} {clause_text(name):>13} {count:5} {row.direct:7} {row.two_level:7} {called:>7} {row.limit:7}")
        over += row.steps() > row.limit
    print(f"{len(rows)} rows, {over} routines over their limit")
    return over > 0


if __name__ == "__main__":
    sys.exit(main())
