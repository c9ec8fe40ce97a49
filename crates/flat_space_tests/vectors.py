#!/usr/bin/env python3
"""Makes stdin and stdout of this program from the tables below, which say of each row what it must print: what C99 and the rules of
keys say, worked out by hand.

usage: python3 crates/flat_space_tests/vectors.py make
"""

import os
import sys

# An address, a size and what the lock word holds, for an object from 1024 to 1040 with key 5, and how the judgement ends: 120 is
# the status of a spatial violation, and 121 that of a temporal one.
JUDGED = [
    (1024, 16, 5, "Past"),
    (1039, 1, 5, "Past"),
    (1023, 1, 5, "Over(120)"),
    (1040, 1, 5, "Over(120)"),
    (1033, 8, 5, "Over(120)"),
    (1023, 1, 6, "Over(120)"),
    (1024, 16, 6, "Over(121)"),
    (1024, 16, 0, "Over(121)"),
    (2 ** 64 - 1, 2, 5, "Over(120)"),
]

# Blocks of a size with a key, each with the offset of its place, or none; or the offset of a block that is removed. A block takes
# its size rounded up to a multiple of 16, and at least 16; the place is the least at which it meets no live block (C99 7.20.3.3).
# The heap has 4 MiB.
HEAP = [
    ("24:2", 0), ("1:3", 32), ("0:4", 48), ("16:5", 64), ("-32", None), ("17:6", 80), ("16:7", 32), ("-0", None), ("33:8", 112),
    ("4194304:9", None), (f"{2 ** 64 - 1}:10", None), ("32:11", 0),
]

# The words of entries.rt. Entries are none at first, are read as they were written, and of a range that is cleared none again.
WORDS = [0x10000000, 0x10000008, 0x10001000, 0x10102340, 0x10102ff8]
CLEARED = [0x10000008, 0x10001000]

# The words of start.rt, with the entries of the two that have one.
STARTED = [
    (0x10000008, None),
    (0x10000010, [0x10000020, 0x10000030, 1, 0x50000000]),
    (0x10000018, None),
    (0x10001ff0, None),
    (0x10001ff8, [0x10001000, 0x10002000, 1, 0x50000000]),
]

NONE = [0, 0, 0, 0]


def placed(action, offset):
    """What is told of an action: of a block its place and the size that is found, as given."""
    if action.startswith("-"):
        return "removed"
    return "None None" if offset is None else f"Some({offset}) Some({action.split(':')[0]})"


def rows():
    for address, size, word, left in JUDGED:
        yield f"judge {address} {size} {word}", [left]
    yield "heap " + " ".join(action for action, _ in HEAP), [placed(*it) for it in HEAP]
    written = [[word + part for part in range(4)] for word in WORDS]
    kept = [NONE if word in CLEARED else entry for word, entry in zip(WORDS, written)]
    for form in ("direct", "two-level"):
        yield f"entries {form}", [str(entry) for entry in [NONE] * 5 + written + kept]
        yield f"start {form}", [str(entry or NONE) for _, entry in STARTED]
    # Keys are counted from 2 on and never used again; a lock word that is held is handed out to no other.
    yield "births 10000", ["2 true 10000"]


def main():
    if sys.argv[1:] != ["make"]:
        sys.exit(__doc__)
    here = os.path.dirname(os.path.abspath(__file__))
    made = list(rows())
    with open(os.path.join(here, "stdin"), "w") as f:
        f.writelines(row + "\n" for row, _ in made)
    with open(os.path.join(here, "stdout"), "w") as f:
        f.writelines(line + "\n" for _, lines in made for line in lines)
    print(len(made), "rows")


if __name__ == "__main__":
    main()
