#!/usr/bin/env python3
# Random conditions of #if, against gcc: makes COUNT of them (500 where no number is given), one in five with a token too
# many, one too few or another one, and asks gcc -E (12.2.0, whose intmax_t has 64 bits) which group it reads, or which
# error comes first. The answers of PROGRAM, which is crates/c_pre_vectors as it is built, must be the same. Prints each
# text in which they differ, and how many there were of each kind. Conditions in which clang differs from gcc, and those
# that gcc refuses for what C99 leaves open, are left out, and counted.
#
#     python3 bench/conditions.py crates/c_pre_vectors/out/c_pre_vectors [COUNT]
import os
import subprocess
import sys

sys.path.insert(0, os.path.join(os.path.dirname(os.path.abspath(__file__)), "..", "crates", "c_pre_vectors"))
sys.dont_write_bytecode = True
import vectors

program, count = sys.argv[1], int(sys.argv[2]) if len(sys.argv) > 2 else 500
rows, left_out = [], 0
for text in vectors.random_conditions(count):
    try:
        rows.append((text, vectors.expected(text)))
    except ValueError:
        left_out += 1
told = subprocess.run([program], input=vectors.END.join(text for text, _ in rows), capture_output=True, text=True, check=True)
answers = told.stdout.split(vectors.END)[:-1]
assert len(answers) == len(rows)
wrong = [(text, want, answer) for (text, want), answer in zip(rows, answers) if want != answer]
for text, want, answer in wrong:
    print("gcc:", want.strip(), "here:", answer.strip(), "of", repr(text))
faults = sum(want.startswith("fault") for _, want in rows)
print(f"{len(rows)} conditions, {faults} of them faults, {left_out} left out; {len(wrong)} differ")
sys.exit(1 if wrong else 0)
