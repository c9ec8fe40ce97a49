#!/usr/bin/env python3
"""Whether the costs of three-address code (crates/tac_ir/specs/Costs.antt) pay for the flat code of each instruction, in
a function whose instructions count two units each. All numbers are read out of the definitions: what each kind of
instruction costs, how many steps each routine's clause allows, and how many units a call, a return and an instruction
are; what is written here is only which of them a kind of instruction is made of. A unit of cost pays for 21 units of
flat code, and one that the run of the source counts itself for four times as many.

usage: python3 bench/cost_table.py     (status 1 where a kind is not paid for)
"""

import os
import re
import sys

CRATES = os.path.join(os.path.dirname(os.path.realpath(__file__)), "..", "crates")
PER_UNIT = 21
COUNTED = 4 * PER_UNIT
# a word that is moved, a number that is made, a branch
MOVE = NUMBER = BRANCH = 1
POINTER = 5


def text_of(path):
    with open(os.path.join(CRATES, path)) as file:
        return file.read()


def body_of(path, name):
    """The text of a definition, up to the next blank line."""
    found = re.search(rf"^abbrev pub {name} :.*?\n\n", text_of(path) + "\n\n", re.M | re.S)
    assert found, (path, name)
    return found[0]


def steps_of(path, name):
    """The steps of a routine's clause: a constant, and how many for each unit or byte."""
    text = body_of(path, name)
    forms = (r"\(λ \w+\. (\d+)(?: \+ (\d+) \* .*)?\)\s*\(λ", r"\((\d+) \+ (\d+) \* .*\)", r"\(λ \w+\. (\d+)()\)")
    for form in forms:
        found = re.findall(form, text)
        if found:
            return int(found[-1][0]), int(found[-1][1] or 0)
    raise AssertionError((path, name))


def steps_by_kind(path, name, kind):
    """The steps of a clause that has them by the kind of value."""
    return int(re.search(rf"^{name} \({kind} .*\) = (\d+)$", text_of(path), re.M)[1])


def length_of(path, name):
    """How many instructions a definition lists, where it lists them one by one."""
    return len(re.findall(r"(?:=|∷|\(|\+\+)\s*(?:Operate|Branch|Load|Store|Move|Constant|End|Turn|Charged|Put|Get) ",
                          body_of(path, name).split("\n", 1)[1]))


def costs():
    """The numbers of the table of costs, and those of kinds by the kind."""
    text = text_of("tac_ir/specs/Costs.antt")
    found = {name: int(value) for name, value in re.findall(r"^(\w+) = (\d+)$", text, re.M)}
    for name, kind, value in re.findall(r"^(\w+) \((?:OfScalar )?(Pointer|Structure n)\) = (\d+)$", text, re.M):
        found[f"{name} {kind.split(' ')[0]}"] = int(value)
    for name, value in re.findall(r"^(\w+) _ = (\d+)$", text, re.M):
        found[f"{name} other"] = int(value)
    first, each = re.search(r"^printing arguments = (\d+) \+ (\d+) \* arguments$", text, re.M).groups()
    found["printing first"], found["printing each"] = int(first), int(each)
    return found


def call_units(what):
    """The units of a flat call or return, and of each value that it hands over."""
    found = re.search(rf"^cost p f \({what} .*\) = (\d+) \+ (\d+) \* ", text_of("flat_code/specs/Meaning.antt"), re.M)
    return int(found[1]), int(found[2])


def cleared_registers():
    """How many registers a function of the runtime makes 0, each for a unit."""
    found = re.search(r"^cleared_registers = (\d+)$", text_of("runtime_functions/specs/Functions.antt"), re.M)
    return int(found[1])


def signatures():
    """Of each routine of the library how many words it takes and gives, and its steps."""
    words = {"NoValue": 0, "OneWord": 1, "WithEntry": POINTER}
    form = r"^signature (\w+) =\s*record \{ takes = (.*?) ∷ \[\]; gives = (\w+); constant = (\d+); factor = (\d+) \}"
    for name, takes, gives, constant, factor in re.findall(form, text_of("runtime_functions/specs/Library.antt"), re.M):
        yield name, sum(words[t] for t in takes.split(" ∷ ")), words[gives], int(constant), int(factor)


class Table:
    def __init__(self):
        self.failed = 0
        print(f"{'instruction':28} {'needs':>7} {'has':>7}   {'each counted':>12} {'has':>5}")

    def row(self, name, need, cost, each=0, counted=0):
        """What an instruction needs and what each unit that the run counts needs, beside what they have. `counted` is
        how many units the run counts at least, whose surplus pays for the instruction too."""
        has = PER_UNIT * cost + counted * (COUNTED - each)
        good = need <= has and each <= COUNTED
        self.failed += not good
        print(f"{name:28} {need:7} {has:7}   {each or '-':>12} {COUNTED if each else '-':>5} {'' if good else ' over'}")


def program(steps):
    """Units of steps in a function of the program."""
    return 2 * steps


def called(parameters, results, price, steps, moved=0):
    """The call of a function of the runtime, whose steps count `price` each, and the test of its status. The arguments
    of a routine of the library stand where it takes them, and it gives its result in place; of other calls so many
    words are moved or made."""
    call, word = call_units("Call")
    back, _ = call_units("Return")
    hands = call + word * parameters + back + word * (1 + results)
    return hands + cleared_registers() + price * steps + 1 + program(MOVE * moved + BRANCH)


def main():
    c, table = costs(), Table()
    access = "lib_wrappers/specs/AccessRoutines/Accessing.antt"
    load, store = steps_by_kind(access, "load_steps", "Pointer"), steps_by_kind(access, "store_steps", "Pointer")
    spatial = steps_of("flat_actions/specs/Judgement/Testing.antt", "IsSpatialRoutine")
    temporal = steps_of("flat_actions/specs/Judgement/Testing.antt", "IsTemporalRoutine")
    narrow = steps_of("flat_actions/specs/Narrowing.antt", "IsNarrowRoutine")
    tagged = steps_of("flat_actions/specs/Ranges.antt", "IsTaggedMoveRoutine")
    zero = steps_of("lib_wrappers/specs/AllocatingRoutines/Zeroing.antt", "IsZeroRoutine")
    enter = steps_of("lib_wrappers/specs/AllocatingRoutines/Entering.antt", "IsEnterRoutine")
    leave = steps_of("lib_wrappers/specs/AllocatingRoutines/Entering.antt", "IsLeaveRoutine")
    number = steps_of("lib_wrappers/specs/PrintingRoutines/Numbers.antt", "IsNumberRoutine")
    scan = steps_of("flat_actions/specs/Scanning.antt", "IsScanRoutine")
    put = steps_of("lib_wrappers/specs/StringRoutines/Putting.antt", "IsPutRoutine")
    update = length_of("metadata_plan/specs/Blocks.antt", "right_code")
    wide = 5 * NUMBER
    operation = c["operation"]
    table.row("spatial check", program(spatial[0]), operation)
    table.row("temporal check", program(temporal[0]), operation)
    table.row("narrowed, both numbers wide", program(narrow[0] + 2 * wide), c["pointer_operation"])
    table.row("read of a pointer", program(load), operation + c["entries_of Pointer"])
    table.row("write of a pointer", program(store + POINTER * MOVE), operation + c["stores_of Pointer"])
    table.row("part that is a pointer", program(store + NUMBER), operation + c["parts_of Pointer"])
    table.row("update of a pointer", program(load + store + update + POINTER * MOVE),
              operation + c["updates_of Pointer"])
    for name in ("stores_of", "parts_of"):
        table.row(f"structure, {name.split('_')[0]}", called(3, 0, 1, tagged[0], 3),
                  operation + c[f"{name} Structure"], tagged[1], 1)
    areas = "lib_wrappers/specs/AreaRoutines"
    taken, part = steps_of(f"{areas}/Values.antt", "IsTakeRoutine"), steps_of(f"{areas}/Parts.antt", "IsTakePartRoutine")
    contents = steps_of(f"{areas}/Values.antt", "IsPutRoutine")
    zeros = steps_of(f"{areas}/Values.antt", "IsMakeZeroRoutine")
    read = steps_by_kind(f"{areas}/Reading.antt", "read_steps", "Pointer")
    table.row("pointer out of contents", program(read), operation + c["entries_of Pointer"])
    table.row("contents of zeros", called(2, 0, 1, zeros[0], 2), operation, zeros[1], 1)
    # a part of contents is handed over with what a pointer has
    table.row("contents taken", called(3, 0, 1, taken[0], 3), c["taking"], taken[1], 1)
    table.row("part of contents taken", called(2 + POINTER, 0, 1, part[0], 2 + POINTER), c["taking"], part[1], 1)
    for name in ("stores_of", "parts_of"):
        table.row(f"contents, {name.split('_')[0]}", called(2 + POINTER, 0, 1, contents[0], 2 + POINTER),
                  operation + c[f"{name} Structure"], contents[1], 1)
    table.row("object made zero", called(2, 0, 1, zero[0], 2), c["zeroing"], zero[1], 1)
    table.row("block entered", called(2, 4, 1, enter[0], 6), c["block_entry"], enter[1], 2)
    table.row("block left", program(leave[0]), c["block_exit"])
    for name, takes, gives, constant, factor in signatures():
        table.row(name.lower(), called(takes, gives, 2, constant), c["routine_call"], 2 * factor)
    table.row("printf, a number", called(1, 1, 2, number[0], 2), c["printing first"] + c["printing each"], 2 * number[1])
    table.row("printf, a string", called(POINTER, 1, 1, scan[0], POINTER) + called(2, 0, 2, put[0], 2),
              c["printing first"] + c["printing each"], scan[1] + 2 * put[1], 1)
    call, word = call_units("Call")
    back, _ = call_units("Return")
    tests = length_of("metadata_plan/specs/Blocks.antt", "call_tests") - 1
    table.row("call of no argument", call + program(tests), c["call"])
    table.row("return of a pointer", back + word * POINTER, c["returning"])
    if table.failed:
        sys.exit(f"{table.failed} are not paid for")


if __name__ == "__main__":
    main()
