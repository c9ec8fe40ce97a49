#!/usr/bin/env python3
"""Makes stdin and stdout of this program from the tables below, which say of each row what it must print, by hand: by the
documentation of the crates, docs/FORMATS.md and clap's documents.

usage: python3 crates/base_tests/vectors.py make
"""

import os
import sys

NAMES = ["Heap", "Stack", "Calls", "Blocks", "Keys"]
PLAIN = [4194304, 1048576, 4194304, 16384, 2 ** 62]
EACH = [4096, 8192, 12288, 4, 5]
HEAP = [8192] + PLAIN[1:]

# A size of a budget, and whether it is allowed.
SIZES = [
    ("Heap", 0, False), ("Heap", 4095, False), ("Heap", 4096, True), ("Heap", 4097, False), ("Heap", 16777216, True),
    ("Heap", 16781312, False), ("Stack", 0, False), ("Stack", 4095, False), ("Stack", 4096, True), ("Stack", 4194303, False),
    ("Stack", 4194304, True), ("Stack", 4198400, False), ("Calls", 0, False), ("Calls", 4095, False), ("Calls", 4096, True),
    ("Calls", 10000, False), ("Calls", 16777216, True), ("Calls", 16781312, False), ("Blocks", 0, False), ("Blocks", 1, True),
    ("Blocks", 65536, True), ("Blocks", 65537, False), ("Keys", 0, True), ("Keys", 2 ** 62, True), ("Keys", 2 ** 62 + 1, False),
]

# Sizes, and the first that is not allowed.
FIRST_FAULTS = [
    ([1, 2, 3, 0], "Heap"), ([4096, 2, 3, 0], "Stack"), ([4096, 4096, 3, 0], "Calls"), ([4096, 4096, 4096, 0], "Blocks"),
    ([4096, 4096, 4096, 1], "Keys"),
]

# What a program exits with, and the code of that.
EXITS = [(0, 0), (300, 44), (-1, 255), (-256, 0), (2 ** 31 - 1, 255), (-2 ** 31, 0)]

# The violations of the program in their order, each with its code and its words.
VIOLATIONS = [
    (120, "spatial violation"), (121, "temporal violation"), (122, "bad call"), (123, "bad free"), (124, "division by zero"),
    (125, "stack exhausted"), (126, "keys exhausted"), (134, "abort"),
]
LAST = 2 ** 32 - 1
ENDINGS = [(0, 1), (1, 1), (1, LAST), (2, 2), (3, 10), (4, 1), (5, 999), (6, 1), (7, 1), (7, LAST)]

# As clap's documents say: an option stands anywhere before `--`, and once; a value that begins with a hyphen is taken for an
# option, unless it is written after `=`. Each builds `a.elf` of `a.c`.
BUILDS = [
    ("build a.c a.elf", PLAIN),
    ("build a.c a.elf --heap 4096 --stack 8192 --calls 12288 --blocks 4 --keys 5", EACH),
    ("build --heap=8192 a.c a.elf", HEAP),
    ("build a.c --heap 8192 a.elf", HEAP),
]

# Each runs this image with this limit.
RUNS = [
    ("run a.elf", "a.elf", 10 ** 9),
    ("run a.elf --limit 5", "a.elf", 5),
    ("run --limit=5 a.elf", "a.elf", 5),
    ("run a.elf --limit 0", "a.elf", 0),
    ("run a.elf --limit 4611686018427387904", "a.elf", 2 ** 62),
    ("run -- -a.elf", "-a.elf", 10 ** 9),
    ("run -", "-", 10 ** 9),
    ("run run", "run", 10 ** 9),
]

# Each goes with `a.c`, with these budgets and this limit.
GOES = [
    ("go a.c", PLAIN, 10 ** 9),
    ("go a.c --heap 8192 --limit 7", HEAP, 7),
    ("go a.c --limit=7 --heap=8192", HEAP, 7),
]

# Each lists an image, or puts one together from a listing.
LISTINGS = [
    ("list a.elf", 'List { image: "a.elf" }'),
    ("list -- -a.elf", 'List { image: "-a.elf" }'),
    ("asm a.lst a.elf", 'Assemble { listing: "a.lst", image: "a.elf" }'),
]

# Each compiles and runs the source of this seed with so many functions.
WORKS = [
    ("work 0 1", 0, 1), ("work 7 64", 7, 64), ("work 18446744073709551615 2", 2 ** 64 - 1, 2), ("work -- 3 4", 3, 4),
]

# Each is refused.
REFUSED = [
    "", "compile a.c", "--help", "-h", "help", "help go", "go --help", "go a.c --help", "--version", "--limit 5 run a.elf",
    "build", "build a.c", "build a.c a.elf more", "build a.c a.elf --limit 5", "run", "run a.elf --heap 5", "run a.elf --limit",
    "run a.elf --limit 5 --limit 5", "run a.elf --limit=", "run a.elf --limit +5", "run a.elf --limit -5", "run a.elf --limit=-5",
    "run a.elf --limit 05", "run a.elf --limit 00", "run a.elf --limit 5x", "run a.elf --limit 4611686018427387905",
    "run a.elf --limi 5", "run -a.elf", "run a.elf -- --limit 5", "go", "go a.c --keys 18446744073709551616",
    "go a.c --keys 100000000000000000000", "go a.c --keys 018446744073709551615", "go a.c b.c", "go a.c --heap 4095",
    "go a.c --heap 4097", "go a.c --heap 16781312", "build a.c a.elf --stack 4198400", "build a.c a.elf --calls 16781312",
    "list", "list a.elf b.elf", "list a.elf --limit 5", "asm", "asm a.lst", "asm a.lst a.elf more", "asm a.lst a.elf --heap 4096",
    "work", "work 0", "work 0 0", "work 0 65", "work 0 1 2", "work 18446744073709551616 1", "work 00 1", "work 0 01", "work -1 1",
    "work 0 -1", "work +1 1", "work 0x1 1", "work 0 1 --limit 5", "work 0 1 --heap 4096", "work --help",
    "build a.c a.elf --blocks 0", "build a.c a.elf --blocks 65537", "go a.c --keys 4611686018427387905",
]

# Sources that `work SEED COUNT` compiles. The state behind the seed 0 is 1442695040888963407, whose highest 31 bits are 167951807: the
# remainder modulo 4 is 3, and 2 more than the remainder of the quotient modulo 15 is 13. Behind 1 it is 7806831264735756412, with the
# highest 31 bits 908834774, remainder 2 and then 5.
STRUCTURE = "struct n{int v;struct n*q;};"
SOURCES = {
    (0, 1): (238, ["int g0(int a){return a*13+1;}", "int h0(int a){return a-13;}",
                   "int f0(int a){int(*t[2])(int);int i;t[0]=g0;t[1]=h0;for(i=0;i<13;i++)a=t[i%2](a);return a;}",
                   r'int main(void){int s=0;s=f0(s);printf("%d\n",s);return 0;}']),
    (1, 1): (218, ["int f0(int a){char b[64];char c[64];int i;for(i=0;i<5;i++)b[i]=97+(a+i&15);strcpy(c,b);strcat(c,b);"
                   "return strlen(c)+strcmp(b,c);}", r'int main(void){int s=1;s=f0(s);printf("%d\n",s);return 0;}']),
}
# Seeds and counts whose sources are made here, by the words of docs/FORMATS.md, from the functions of each template.
LONG_SOURCES = [(7, 64), (2 ** 64 - 1, 64), (12345, 12)]
TEMPLATES = [
    ["int f{I}(int a){{struct n*h=0;int i;for(i=0;i<{K};i++){{struct n*m=malloc(sizeof(struct n));m->v=a+i;m->q=h;h=m;}}int s=0;"
     "while(h){{struct n*m=h->q;s=s*3+h->v;free(h);h=m;}}return s;}}"],
    ["int f{I}(int a){{int x[{K}][{K}];int i;int j;int s=0;for(i=0;i<{K};i++)for(j=0;j<{K};j++)x[i][j]=a+i*j;"
     "for(i=0;i<{K};i++)for(j=0;j<{K};j++)s=s+x[i][j]*x[j][i];return s;}}"],
    ["int f{I}(int a){{char b[64];char c[64];int i;for(i=0;i<{K};i++)b[i]=97+(a+i&15);strcpy(c,b);strcat(c,b);"
     "return strlen(c)+strcmp(b,c);}}"],
    ["int g{I}(int a){{return a*{K}+1;}}", "int h{I}(int a){{return a-{K};}}",
     "int f{I}(int a){{int(*t[2])(int);int i;t[0]=g{I};t[1]=h{I};for(i=0;i<{K};i++)a=t[i%2](a);return a;}}"],
]

# The regions of a map with 10000 bytes of static objects, by the table in addr_map's documentation: these are three pages, so that object
# space has 5255168 bytes: 1283 pages, whose entries take 21020672 bytes, and the first level with its cell 10272, which makes 5135
# pages. There are 1 + 65536 + 16384 lock words.
REGIONS = [
    ("JumpTable", 0x10000, 0xfffff),
    ("Code", 0x100000, 0x8fffff),
    ("Globals", 0x10000000, 0x10002fff),
    ("Stack", 0x10003000, 0x10102fff),
    ("Heap", 0x10103000, 0x10502fff),
    ("Shadow", 0x40000000, 0x4140efff),
    ("Locks", 0x4140f000, 0x414affff),
    ("FreeLocks", 0x414b0000, 0x41550fff),
    ("Blocks", 0x41551000, 0x415d1fff),
    ("StructureValues", 0x415d2000, 0x419d1fff),
    ("Cells", 0x419d2000, 0x419d2fff),
    ("Arguments", 0x419d3000, 0x419d4fff),
    ("Calls", 0x419d5000, 0x421d4fff),
    ("RuntimeCalls", 0x421d5000, 0x421e4fff),
]

# An image of four segments, each on a page of the file behind that of the headers but for the runtime, which has no bytes: the
# rows of the jump table and the code may be executed alone, the objects and the runtime read and written.
IMAGE = [
    "16384 bytes, entry 10010",
    "10000 20 --x [111, 0, 0, 0]",
    "100000 4 --x [115, 0, 0, 0]",
    "10000000 2000 rw- [1, 2, 3]",
    "40000000 1000 rw- []",
]

# What each object of the outside gives in turn, as outside.rt and host.rt say.
OUTSIDE = {
    "source": ["Ok(Some(7))", "Err(Failed)", "Ok(Some(8))", "Ok(None)", "Err(Failed)", "Ok(None)"],
    # The listed call keeps one byte, and the last goes past the room.
    "sink": ["Ok(())", "Err(Failed)", "Ok(())", "Err(Failed)", 'Ok("abcefg")'],
    # The listed write keeps two bytes; then come more bytes than there is room for, and a file that is not there.
    "files": ["Ok(())", "Err(Failed)", "Err(Failed)", "Err(Failed)", 'Ok("ne")', "TooLong(4)", "Failed", "Failed", 'Ok("more")'],
    "streams": ["Ok(Some(120))", "Ok(Some(121))", "Ok(None)", "Ok(())", "Ok(())", "Err(Failed)"],
    "host": ["Ok(())", 'Ok("some bytes")', "TooLong(10)", "Failed", "Err(Failed)"],
}


def budgets_shown(sizes):
    return "Budgets { " + ", ".join(f"{name.lower()}: {size}" for name, size in zip(NAMES, sizes)) + " }"


def budget_rows():
    for name, size, allowed in SIZES:
        sizes = [size if name == other else plain for other, plain in zip(NAMES, PLAIN)]
        fault = "BudgetFault { which: %s, given: %d }" % (name, size)
        yield " ".join(["budgets"] + [str(it) for it in sizes]), [str(sizes) if allowed else fault]
    for sizes, name in FIRST_FAULTS:
        sizes = sizes + [2 ** 64 - 1]
        fault = "BudgetFault { which: %s, given: %d }" % (name, sizes[NAMES.index(name)])
        yield " ".join(["budgets"] + [str(it) for it in sizes]), [fault]
    yield "default", [str(PLAIN)]


def ending_rows():
    """Each report, in front of the dots that fill the 64 places for it."""
    reports = [(f"exit {given}", code, "") for given, code in EXITS]
    for which, line in ENDINGS:
        code, words = VIOLATIONS[which]
        reports.append((f"ending {which} {line}", code, f"sbcets: {words} at line {line}\n"))
    for row, code, report in reports:
        yield row, f"{code} {len(report)} {report}{'.' * (64 - len(report))}".split("\n")


def command_rows():
    for words, sizes in BUILDS:
        yield f"words {words}", ['Ok(Build { source: "a.c", image: "a.elf", budgets: %s })' % budgets_shown(sizes)]
    for words, image, limit in RUNS:
        yield f"words {words}", ['Ok(Run { image: "%s", limit: %d })' % (image, limit)]
    for words, sizes, limit in GOES:
        yield f"words {words}", ['Ok(Go { source: "a.c", budgets: %s, limit: %d })' % (budgets_shown(sizes), limit)]
    for words, shown in LISTINGS:
        yield f"words {words}", [f"Ok({shown})"]
    for words, seed, count in WORKS:
        yield f"words {words}", ["Ok(Work { seed: %d, count: %d })" % (seed, count)]
    for words in REFUSED:
        yield f"words {words}", ["Err(Usage)"]
    yield "nothing", ["Err(Usage)"]
    yield "owned run a.elf", ['Ok(Run { image: "a.elf", limit: 1000000000 })']


def long_source(seed, count):
    """The lines of a source by the words of docs/FORMATS.md."""
    lines, state = [STRUCTURE], seed
    for number in range(count):
        state = (6364136223846793005 * state + 1442695040888963407) % 2 ** 64
        rest, template = divmod(state >> 33, 4)
        lines += [line.format(I=number, K=2 + rest % 15) for line in TEMPLATES[template]]
    calls = "".join(rf's=f{number}(s);printf("%d\n",s);' for number in range(count))
    return lines + [f"int main(void){{int s={seed % 1000};{calls}return 0;}}"]


def source_rows():
    for (seed, count), (size, lines) in SOURCES.items():
        yield f"work {seed} {count}", [f"{size} bytes", STRUCTURE, *lines]
    for seed, count in LONG_SOURCES:
        lines = long_source(seed, count)
        yield f"work {seed} {count}", [f"{sum(len(line) + 1 for line in lines)} bytes", *lines]


def map_rows():
    for number, (name, first, last) in enumerate(REGIONS):
        yield f"region 10000 {number}", [f"{name} {first:x} {last:x}"]
    # No bytes take no page, and the region ends before it begins.
    yield "region 0 2", ["Globals 10000000 fffffff"]
    yield "map 10000", [f"10000 {budgets_shown(PLAIN)}"]
    yield "map 4194304", [f"4194304 {budgets_shown(PLAIN)}"]
    yield "map 4194305", ["TooLarge(4194305)"]
    yield "function 3", ["10030"]


def main():
    if sys.argv[1:] != ["make"]:
        sys.exit(__doc__)
    here = os.path.dirname(os.path.abspath(__file__))
    rows = [*budget_rows(), *ending_rows(), *command_rows(), *source_rows(), *map_rows(), ("image", IMAGE), *OUTSIDE.items()]
    with open(os.path.join(here, "stdin"), "w") as f:
        f.writelines(row + "\n" for row, _ in rows)
    with open(os.path.join(here, "stdout"), "w") as f:
        f.writelines(line + "\n" for _, lines in rows for line in lines)
    print(len(rows), "rows")


if __name__ == "__main__":
    main()
