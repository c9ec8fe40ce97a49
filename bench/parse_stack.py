#!/usr/bin/env python3
# How much stack `PROGRAM go TEXT` needs, in steps of 16 KiB, for texts that nest as deep as 200 levels allow, one of each kind.
# Each is parsed, and then refused since it is no text of the part.
#
#     python3 bench/parse_stack.py crates/sbcets_cli/out/sbcets_cli
import os, resource, subprocess, sys, tempfile

STEP = 16 << 10
MOST = 8 << 20


def nest(head, before, middle, behind, tail, times):
    """A text with repeated parts around its middle."""
    return head + before * times + middle + behind * times + tail


TEXTS = {
    "parentheses": nest("int x=", "(", "0", ")", ";", 200),
    "casts": nest("int x=", "(int)", "0", "", ";", 200),
    "unary operators": nest("int x=", "- ", "0", "", ";", 200),
    "conditionals": nest("int x=", "0?0:", "0", "", ";", 200),
    "calls": nest("int x=", "f(", "0", ")", ";", 200),
    "assignments": nest("int f(void){", "x=", "0", "", ";}", 200),
    "sums": nest("int x=", "", "0", "+0", ";", 200),
    "declarators": nest("int ", "(", "x", ")", ";", 200),
    "parameters": nest("int f(", "int(", "void", ")", ");", 199),
    "structures": nest("", "struct{", "int x;", "}x;", "", 200),
    "initializers": nest("int x=", "{", "0", "}", ";", 200),
    "blocks": nest("int f(void){", "{", "", "}", "}", 200),
    "if": nest("int f(void){", "if(0)", ";", "", "}", 199),
    "else": nest("int f(void){", "if(0);else ", ";", "", "}", 199),
    "while": nest("int f(void){", "while(0)", ";", "", "}", 199),
    "do": nest("int f(void){", "do ", ";", "while(0);", "}", 199),
    "for": nest("int f(void){", "for(;;)", ";", "", "}", 199),
    "case": nest("int f(void){switch(0){", "case 0:", ";", "", "}}", 197),
}


def answer(program, path, stack):
    """The status and the line of a run with this stack."""
    limit = lambda: resource.setrlimit(resource.RLIMIT_STACK, (stack, stack))
    run = subprocess.run([program, "go", path], capture_output=True, preexec_fn=limit)
    return run.returncode, run.stderr.decode().strip()


def least(program, path):
    """The least stack with which the answer is that of the greatest."""
    right = answer(program, path, MOST)
    assert right[0] == 110 and "unsupported" in right[1], right
    low, high = STEP, MOST
    while high - low > STEP:
        middle = (low + high) // 2 // STEP * STEP
        if answer(program, path, middle) == right:
            high = middle
        else:
            low = middle
    return high


def main():
    if len(sys.argv) != 2 or sys.argv[1].startswith("-"):
        sys.exit("usage: python3 bench/parse_stack.py PROGRAM   (crates/sbcets_cli/out/sbcets_cli)")
    program = sys.argv[1]
    with tempfile.TemporaryDirectory() as folder:
        path = os.path.join(folder, "text.c")
        for kind, text in TEXTS.items():
            with open(path, "w") as file:
                file.write(text)
            print(f"{kind:16} {least(program, path) >> 10:6} KiB")


main()
